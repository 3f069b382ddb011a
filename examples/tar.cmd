# members, and the block of zeros behind them
get /members
get /members/4/is_end
get /members/0/header/kind
get /members/3/header/name
get /members/3/header/link
get /members/1/header/mode
get /members/1/header/time
get /members/1/header/user
get /members/2/len
get /members/1/text
# the checksum of a header: each of its 512 bytes adds to the sum before it
get /members/1/header/sum
get /members/1/header/is_sound
# what a member has, where, and the block of zeros whole
ls /members/1
at /members/1
at /members/1/body
at /members/3/body
at /members/4
dump /members/4/header
# a hard link in place of a symbolic one, and as it was
put /members/3/header/kind 49
get /members/3/header/kind
bytes 3228 2
put /members/3/header/kind 50
# another name: the checksum no longer fits
set 518 63
get /members/1/header/name
get /members/1/header/is_sound
get /members/1/header/sum
set 660 303131373235
get /members/1/header/is_sound
quit
