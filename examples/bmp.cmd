# the header
get /header/width
get /header/height
get /header/bits
get /header/compression
# the rows stand at a place that the header names; the lowest one comes first
get /len_row
get /rows
get /rows/0/pixels
get /rows/0/pixels/1/rgb
get /rows/1/pixels/2/rgb
get /top_left
# what there is, and where
ls /
at /header
at /rows
at /rows/1/pixels
at /top
dump /header
dump /rows/0/pixels/1
# more red, and as it was
put /rows/0/pixels/1/red 255
bytes 57 3
put /rows/0/pixels/1/red 128
# a height below 0 turns the picture over
set 22 feffffff
get /height
get /rows
get /top_left
# three rows are more than the file has
set 22 03000000
get /rows/2
app 010203010203010203000000
get /top_left
get /top_left/red
quit
