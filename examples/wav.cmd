# chunks: the format, the sound, and a list of texts
get /riff/chunks
get /riff/chunks/0/body/tag
get /riff/chunks/0/body/rate
get /riff/chunks/0/body/len_frame
get /riff/chunks/0/body/bytes_per_second
get /riff/milliseconds
get /riff/chunks/1/body/frames
get /riff/chunks/1/body/frames/13/samples/0
get /riff/chunks/1/body/frames/13/samples/1
get /riff/chunks/2/body/kind
get /riff/chunks/2/body/items/0/text
# what a chunk has, where, and some of it whole
ls /riff/chunks/0
at /riff/chunks/1
at /riff/chunks/1/body/frames/13
dump /riff/chunks/0/body
dump /riff/chunks/1/body/frames/13
dump /riff/chunks/2/body/items/0
# another sample, and as it was
put /riff/chunks/1/body/frames/13/samples/0 32768
put /riff/chunks/1/body/frames/13/samples/0 -32768
bytes 96 4
put /riff/chunks/1/body/frames/13/samples/0 -19518
# a list of another kind, and as it was
set 1652 58
get /riff/chunks/2/body/kind
get /riff/chunks/2/body/items/0/text
set 1652 49
get /riff/chunks/2/body/kind
# samples of 24 bits, which this description doesn't read, and as they were
put /riff/chunks/0/body/bits 24
get /riff/chunks/0/body/bits
get /riff/chunks/0/body/len_frame
get /riff/chunks/1/body/frames/13/samples/0
put /riff/chunks/0/body/bits 16
get /riff/chunks/1/body/frames/13/samples/0
# one channel of two bytes: twice as many frames, twice as long. Until frames have two bytes, they don't fit
set 22 0100
get /riff/chunks/0/body/len_frame
get /riff/chunks/1/body/frames
set 32 0200
get /riff/chunks/0/body/len_frame
get /riff/chunks/0/body/bytes_per_second
put /riff/chunks/0/body/bytes_per_second 16000
get /riff/chunks/0/body/bytes_per_second
get /riff/chunks/1/body/frames
get /riff/milliseconds
get /riff/chunks/1/body/frames/27/samples/0
# two channels of one byte, without a sign
set 22 0200
set 34 0800
get /riff/chunks/0/body/len_frame
get /riff/chunks/1/body/frames/27/samples
get /riff/chunks/1/body/frames/27/samples/0
quit
