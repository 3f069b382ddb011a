# the picture
get /width
get /height
get /header
get /chunks/0/body/color
# chunks: what they hold is switched on their names
get /chunks
get /chunks/1/body/times_100000
get /chunks/1/is_optional
get /chunks/2/body/colors
get /chunks/2/body/colors/2/blue
get /chunks/3/body/year
get /chunks/4/body/key
get /chunks/4/body/text
get /chunks/5/body
get /chunks/5/crc
get /chunks/0/body/len_line
# what a chunk has, where, and some of them whole
ls /chunks/2
at /chunks/2
at /chunks/2/body
at /chunks/4/body/key
at /header
dump /header
dump /chunks/2/body
dump /chunks/1
# a second later, and as it was
put /chunks/3/body/second 43
bytes 78 7
put /chunks/3/body/second 42
# no thirteenth month, and no picture without lines; each is mended
put /chunks/3/body/month 13
get /chunks/3/body/month
get /chunks/3/body/day
dump /chunks/3/body
put /chunks/3/body/month 2
get /chunks/3/body/month
put /chunks/0/body/height 0
get /height
get /width
put /chunks/0/body/height 4
get /height
# three bits, and a method of compression that doesn't exist
set 24 03
get /chunks/0/body/bits
get /chunks/0/body/len_line
set 24 08
get /chunks/0/body/len_line
put /chunks/0/body/compression 1
dump /header
put /chunks/0/body/compression 0
# a key without letters, and its first letter again
set 97 00
get /chunks/4/body/key
get /chunks/4/body/text
set 97 54
get /chunks/4/body/key
# a length that is too large: where the next chunk begins isn't known
set 33 80
get /chunks/1/len
get /chunks/1/name
get /chunks/2/name
set 33 00
get /chunks/2/name
# the header must be the first chunk
set 15 53
get /chunks/0
get /chunks
get /header
set 15 52
get /chunks
# the same header with true colours, 16 bits each
set 24 1002
get /chunks/0/body/len_line
# a chunk of another name is bytes
set 74 78
get /chunks/3/body
quit
