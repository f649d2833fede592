# An editor's save: the new text goes into a file beside the old one, which is then renamed over it.
# Each published view has the old text or the new one, and none has a part of it.
writer 1
create /notes.txt
write /notes.txt 0 6f6c64
freeze
create /notes.txt.new
write /notes.txt.new 0 6e657720746578740a
rename /notes.txt.new /notes.txt
read /notes.txt 0 64
ls /
