# Two writers, one after the other in the order of their sections: the second finds what the first left.
writer 2
mkdir /shared
create /shared/plan
write /shared/plan 0 6461792031
freeze
writer 1
create /shared/plan
read /shared/plan 0 16
rename /shared /shared/old
rename /shared /ours
ls /ours
