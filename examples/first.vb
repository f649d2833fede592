writer 1
create /a
write /a 0 68656c6c6f
freeze
write /a 5 21
