# The smallest disk has 38 blocks and 16 nodes, which leaves room for 2 pages. A file of 1 to 4,096 bytes takes both,
# one for its bytes and one for its map. What has no room is refused, and changes nothing.
disk 38 16
writer 1
create /a
create /b
write /a 0 61
write /b 0 62
truncate /a 4097
truncate /a 0
write /b 0 62
write /b 44433407 0000
rm /a
stat /b
