# sections: what they hold is switched on their numbers
get /version
get /sections
get /sections/4/id
get /sections/4/body/list/0/low/value
get /sections/7/len/value
get /sections/1/body/list/0/module/text
get /sections/1/body/list/0/name/text
get /sections/1/body/list/0/kind
# exports, each with the code of its function
get /sections/6/body/list
get /sections/6/body/list/0/kind
get /sections/6/body/list/0/code
get /sections/6/body/list/2/name/text
get /sections/6/body/list/2/code
# a section of another kind, with a name; its size is a number of one byte
get /sections/8/body/name/text
get /sections/8/len/digits
# what a section has, where, and some of them whole
ls /sections/4
at /sections/4
at /sections/6/body/list/0
at /sections/4/body/list/0/high
dump /sections/4/body
dump /sections/6/body/list/0
# more memory, and as it was
put /sections/4/body/list/0/low/digits/0/byte 16
get /sections/4/body/list/0/low/value
bytes 59 3
put /sections/4/body/list/0/low/digits/0/byte 2
# add in place of the first multiplication
set 144 a0
get /sections/6/body/list/2/code
# and another name
set 91 74756265
get /sections/6/body/list/2/name/text
quit
