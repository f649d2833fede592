# A call that is done and changes nothing is a call that is done: the program freezes once more after it.
writer 1
create /a
freeze
rename /a /a
write /a 0 61
freeze
truncate /a 1
