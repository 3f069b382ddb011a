# the icon: one image, which can't be found
get /kind
get /num_images
get /entries/0/width
get /entries/0/image
get /entries/0/is_right
# its place is wrong: there is room for the image only behind the header
get /entries/0/len_image
size
get /len_header
at /entries/0/ofs_image
put /entries/0/ofs_image 22
get /entries/0/image
get /entries/0/is_right
# what it has, and where
ls /entries/0/image
dump /entries/0
get /entries/0/image/rows
get /entries/0/image/rows/2/pixels/7/red
dump /entries/0/image/rows/2/pixels/7
at /entries/0/image/rows/2/pixels/7
at /entries/0/image
# a second image: one more in the count, an entry behind the first one, 16 bytes more before the first image
put /num_images 2
ins 22 0404000001002000560000006e010000
get /entries/0/image
put /entries/0/ofs_image 38
get /entries/0/is_right
get /entries/1/width
get /entries/1/image
# its bytes at the end
app 89504e470d0a1a0a0000000d4948445200000004000000040806000000a9f19e7e0000001d4944415478da63606068f88f8a1d80043266680012c898e1009040c2008c691df1db67ace80000000049454e44ae426082
get /entries/1/image
get /entries/1/is_right
at /entries/1/image
get /entries/1/image/name
get /entries/0/image/rows/2/pixels/7/red
# a byte too many before it, and as it was
ins 366 00
get /entries/1/mark
del 366 1
get /entries/1/image
stats
size
quit
