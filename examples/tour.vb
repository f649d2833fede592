# A tour: each operation where it is done, and each kind of answer.
writer 1
mkdir /d
create /d/b
create /d/a
write /d/a 2 7a
read /d/a 0 9
read /d/a 3 9
truncate /d/a 5
stat /d/a
stat /d
ls /d
rename /d/a /d/c
rm /d/b
ls /d
rmdir /d
rm /d/c
rmdir /d
ls /
