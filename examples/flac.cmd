# blocks up to the one whose first bit says that it is the last
get /blocks
get /blocks/1/kind
get /blocks/2/last
get /blocks/2/len
at /blocks/2/kind
at /blocks/2/len
# the stream: numbers of 20, 3, 5 and 36 bits
dump /blocks/0/body
at /blocks/0/body/rate
at /blocks/0/body/channels_less_1
at /blocks/0/body/bits_less_1
at /blocks/0/body/samples
at /blocks/0/body/md5
get /blocks/0/body/channels
get /blocks/0/body/milliseconds
dump /blocks/1/body
# the header of the frame
at /frame
dump /frame
at /frame/bits_code
get /coded
# another rate, one channel, 24 bits, and as many samples as there may be
put /blocks/0/body/rate 48000
bytes 18 4
put /blocks/0/body/channels_less_1 0
get /blocks/0/body/channels
bytes 18 4
put /blocks/0/body/bits_less_1 23
get /blocks/0/body/bits
bytes 18 4
put /blocks/0/body/samples 68719476735
get /blocks/0/body/samples
get /blocks/0/body/milliseconds
get /blocks/0/body/bits
bytes 18 8
put /blocks/0/body/samples 68719476736
put /blocks/0/body/rate 1048576
put /blocks/0/body/channels_less_1 8
# too few bits, no rate, and all as it was
put /blocks/0/body/bits_less_1 1
get /blocks/0/body/bits_less_1
get /blocks/0/body/bits
put /blocks/0/body/rate 0
get /blocks/0/body/milliseconds
put /blocks/0/body/rate 44100
put /blocks/0/body/channels_less_1 1
put /blocks/0/body/bits_less_1 15
put /blocks/0/body/samples 192
bytes 18 8
# the comments become padding, and are comments again
put /blocks/1/kind 1
get /blocks/1/kind
get /blocks/1/last
put /blocks/1/kind 4
get /blocks/1/body/texts/1/text
# the first block becomes the last: the frame is looked for behind it. One bit is no number
put /blocks/0/last 1
set 4 80
get /blocks
at /frame
get /frame/sync
set 4 00
get /frame/sync
# a longer block: what is behind it moves
put /blocks/2/len 7
at /frame
get /frame/sync
put /blocks/2/len 6
get /frame/sync
# the frame has 24 bits
put /frame/bits_code 6
get /frame/bits_code
bytes 117 1
put /frame/bits_code 4
get /frame/bits_code
quit
