# the header
get /len_page
get /num_pages
get /user_version
# the table of tables
get /schema
get /pages/0/tree/cells/0/row/record/columns/1/value/text
get /pages/0/tree/cells/0/row/record/columns/3/value
# its table begins with a branch; its leaves are other pages
get /pages/1/tree/kind
get /pages/1/tree/cells/0/branch/page
get /pages/1/tree/cells/0/branch/tree
get /pages/2/tree/cells
# rows: the kind of each column is in the head of its record; no bytes are a missing value, 0 or 1
get /pages/2/tree/cells/3/row/id/value
get /pages/2/tree/cells/0/row/record/columns/1/value/text
get /pages/2/tree/cells/3/row/record/columns/2/value/number
get /pages/2/tree/cells/0/row/record/columns/3/value/bits
get /pages/2/tree/cells/0/row/record/columns/4/value/bytes
get /pages/2/tree/cells/0/row/record/columns/5/value
get /pages/2/tree/cells/2/row/record/columns/5/value/number
# what there is, where, and some of it whole; a page itself has only its number and a tree
ls /pages/2
at /pages/2
dump /pages/2
at /pages/1/tree/cells/0/branch
at /pages/2/tree/cells/0/row
at /pages/2/tree/right
dump /pages/1/tree/cells/0/branch
dump /pages/2/tree/cells/3/row/id
# another version, and the old one
put /user_version -1
put /user_version 8
bytes 60 4
put /user_version 7
# write into the name
set 1517 4d
get /pages/2/tree/cells/0/row/record/columns/1/value/text
quit
