# the screen and its colours
get /version
get /width
get /palette/colors
get /background_color
# blocks: two pictures, each with an extension before it, one for the loop, a comment and the trailer
get /blocks
get /blocks/0/body/body/name
get /blocks/0/body/body/loops
get /blocks/1/body/label
get /blocks/1/body/body/text
get /blocks/2/body/body/delay
get /blocks/4/body/body/disposal
# the second picture has colours of its own
get /blocks/3/body/colors
get /blocks/5/body/colors
get /blocks/5/body/transparent
get /blocks/3/body/transparent
get /blocks/5/body/fits
# what a picture has, and where things are
ls /blocks/3/body
at /blocks
at /blocks/3
at /blocks/3/body/palette
at /blocks/6/body
at /blocks/5/body/palette
dump /palette
dump /blocks/4/body/body
# a picture that is too high, and as it was
put /blocks/5/body/height 300
bytes 115 8
get /blocks/5/body/fits
put /blocks/5/body/height 4
# a version that doesn't exist, a background without a colour, codes of one bit; each is mended
set 4 38
get /version
set 4 39
get /version
put /background 4
get /background
get /background_color
put /background 1
get /background_color
put /blocks/3/body/code_bits 1
get /blocks/3/body/code_bits
put /blocks/3/body/code_bits 2
get /blocks/3/body/code_bits
# a block of a kind that doesn't exist: where the next one begins isn't known
set 68 2d
get /blocks/3/kind
at /blocks/3/kind
get /blocks/4/kind
get /blocks
set 68 2c
get /blocks/4/kind
get /blocks
# move it to the right
set 115 0700
get /blocks/5/body/left
get /blocks/5/body/fits
quit
