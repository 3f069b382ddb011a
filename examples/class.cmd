# the class and what it extends
get /major
get /java
get /name
get /super_name
# flags of the class: it has `super`, and isn't public
get /access/super
at /access/super
get /access/public
# constant 9 is a long, which takes two numbers: the second has no bytes
get /constants
get /constants/8/tag
get /constants/8/body
get /constants/9/is_second
get /constants/9/tag
# constant 17 is a string: its text is another constant
get /constants/16/text
# fields and methods: the attributes are switched on their names
get /fields
get /fields/0/name
get /fields/0/is_static
get /fields/0/access/visibility
get /methods/1/access/visibility
get /fields/0/attributes/0/name
get /fields/0/attributes/0/body/constant
get /methods/1/name
get /methods/1/attributes/0/body/max_stack
# what a method has, where things are, and a field whole
ls /methods/1
at /constants/8
at /constants/9
dump /constants/8
dump /constants/9
at /fields/0
dump /fields/0
# a field that is private, then not static too, and again as it was; one bit is no number
put /fields/0/access/visibility 2
get /fields/0/access/visibility
get /fields/0/access/final
bytes 286 2
put /fields/0/access/static 0
set 287 12
get /fields/0/is_static
get /fields/0/access/visibility
put /fields/0/access/visibility 0
get /fields/0/access/visibility
bytes 286 2
set 287 18
get /fields/0/is_static
put /fields/0/access/visibility 8
# rename the method, in its constant
set 213 66
get /methods/1/name
quit
