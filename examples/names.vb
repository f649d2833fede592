# In a path `%` and two hexadecimal digits stand for a byte, and any other `%` for itself. What is printed has the
# bytes 0x00 to 0x20, `%` and 0x7F so.
writer 7
create /two%20words
create /100%25
create /50%
create /R%c3%a9sum%C3%A9.txt
ls /
