# the first field, and the second: two bytes, the lower one first
get /a
get /b
# what there is, where, and all of it
ls /
at /b
dump /
# another number in the second field, and the first one again
put /b -256
bytes 0 3
put /b -2
# write over the second field, and ask again
set 1 0080
get /b
# a byte more at the end
app 01
size
get /
quit
