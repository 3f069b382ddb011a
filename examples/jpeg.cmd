# the segments up to the scan, and the coded picture
get /segments
get /segments/4/marker
at /segments/4
dump /segments/1
at /coded
get /end
# the frame: the first component has twice as many samples across and down as the others
get /segments/4/body/width
get /segments/4/body/height
get /segments/4/body/components
dump /segments/4/body/components/0
at /segments/4/body/components/0/across
at /segments/4/body/components/0/down
dump /segments/4/body/components/2
get /segments/4/body/block_width
# tables: two numbers in the first byte
get /segments/2/body/tables/0/precision
get /segments/3/body/tables/0/number
get /segments/3/body/tables/0/small/3
at /segments/3/body/tables/0/large
at /segments/3/body/tables/0/number
# codes: each byte has two numbers
get /segments/6/body/tables/0/kind
get /segments/7/body/tables/0/kind
get /segments/7/body/tables/0/number
get /segments/6/body/tables/0/codes
dump /segments/8/body/tables/0
at /segments/6/body/tables/0/codes/6
dump /segments/9/body
# as many samples of the first component as of the others, first down and then across too; and again as it was
put /segments/4/body/components/0/down 1
dump /segments/4/body/components/0
put /segments/4/body/components/0/across 1
get /segments/4/body/components/0/across
get /segments/4/body/block_width
bytes 168 3
put /segments/4/body/components/0/across 5
get /segments/4/body/components/0/across
get /segments/4/body/components/0/down
get /segments/4/body/block_width
put /segments/4/body/components/0/across 16
put /segments/4/body/components/0/across 2
put /segments/4/body/components/0/down 2
bytes 168 3
# another table for the second component, one that can't be, and again as it was
put /segments/9/body/components/1/ac_table 0
dump /segments/9/body/components/1
put /segments/9/body/components/1/dc_table 4
get /segments/9/body/components/1/dc_table
get /segments/9/body/components/1/ac_table
put /segments/9/body/components/1/dc_table 1
put /segments/9/body/components/1/ac_table 1
dump /segments/9/body/components/1
# a table of codes of the other kind
put /segments/8/body/tables/0/kind 0
get /segments/8/body/tables/0/kind
bytes 261 1
put /segments/8/body/tables/0/kind 1
# a table of two bytes a number is too long for its segment
put /segments/2/body/tables/0/precision 1
get /segments/2/body/tables/0/small
get /segments/2/body/tables/0/large
put /segments/2/body/tables/0/precision 0
get /segments/2/body/tables
quit
