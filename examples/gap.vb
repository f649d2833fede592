# A gap is filled with zeros, and a file that is there is not made again.
writer 1
create /log
write /log 10 656e64
create /log
write /missing 0 00
freeze
freeze
