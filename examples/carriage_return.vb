# A carriage return after a path is part of the path, and is printed as %0d.
writer 1
create /a
write /a 0 4142
