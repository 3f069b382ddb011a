# the head: which parts it has is in its flags
get /method
get /flags
get /time
get /system
get /extra/fields/list
get /extra/fields/list/0/id
get /extra/fields/list/0/data
get /name
get /comment
get /crc16
get /body
# the last eight bytes
get /footer/crc32
get /footer/len
get /percent
# what there is, where, and the small parts whole
ls /
at /name
at /body
at /footer
dump /extra
dump /footer
# a length of 0, of which there is no percentage, and the right one
put /footer/len 0
at /percent
bytes 90 8
put /footer/len 215
at /percent
# a byte more at the end: the footer is looked for one byte further
app 00
get /footer/len
# flags that say that there is only a name
set 3 08
get /extra
get /name
quit
