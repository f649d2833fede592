# A file may have 44,433,408 bytes, and this store has room for 7,167 pages.
writer 1
create /a
write /a 44433407 00
write /a 44433407 0000
