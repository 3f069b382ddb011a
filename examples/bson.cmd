# a document in which a list has got a third number, but three lengths don't count it
size
get /document/len_document
get /document/elements/list/0/name
get /document/elements/list/0/value/text
get /document/elements/list/3/name
get /document/elements/list/3/value/elements/list/0/value/elements/list/1/value
get /document/elements/list/3/value/elements/list/1/value/len_document
get /document/elements/list/3/value/elements/list/1/value/elements/list
get /document/elements/list/3/value/elements/list/1/value/end
# each length counts all bytes of its document: mend them from the outside inwards
at /document/elements/list/3/value/elements/list/1/value/len_document
put /document/len_document 156
put /document/elements/list/3/value/len_document 56
put /document/elements/list/3/value/elements/list/1/value/len_document 26
get /document/end
get /document/elements/list
get /document/elements/list/3/value/elements/list/1/value/elements/list
get /document/elements/list/3/value/elements/list/1/value/elements/list/2/value
get /document/elements/list/4/value/is_true
get /document/elements/list/5/value/year
get /document/elements/list/6/value
ls /document/elements/list/3
dump /document/elements/list/3
# a float is its bits: the sign, and the number before and behind the point
get /document/elements/list/1/value/bits
get /document/elements/list/1/value/whole
get /document/elements/list/1/value/thousandths
get /document/elements/list/2/value/is_negative
get /document/elements/list/2/value/whole
put /document/elements/list/1/value/bits 4623648704937590784
get /document/elements/list/1/value/whole
get /document/elements/list/1/value/thousandths
# a third number for the first list too: before the zero at its end; then the three lengths
at /document/elements/list/3/value/elements/list/0/value
ins 83 10320005000000
put /document/len_document 163
put /document/elements/list/3/value/len_document 63
put /document/elements/list/3/value/elements/list/0/value/len_document 26
get /document/elements/list/3/value/elements/list/0/value/elements/list/2/value
# an element less
at /document/elements/list/4
del 121 12
put /document/len_document 151
get /document/elements/list/4/name
# a longer text
at /document/elements/list/0/value/text
ins 18 2037
put /document/elements/list/0/value/len_text 7
put /document/len_document 153
get /document/elements/list/0/value/text
get /document/end
stats
size
quit
