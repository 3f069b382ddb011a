# six packets of a connection: its begin, a request, its answer and the end
get /packets
get /link
# the header of IPv4: two halves of a byte, then six bits and two
get /packets/0/ip/version
get /packets/0/ip/header_words
at /packets/0/ip/header_words
at /packets/0/ip/congestion
get /packets/0/ip/congestion
# three flags of one bit, and a number of thirteen bits behind them
get /packets/0/ip/dont_fragment
at /packets/0/ip/dont_fragment
get /packets/0/ip/ofs_fragment
at /packets/0/ip/ofs_fragment
get /packets/0/ip/is_fragment
get /packets/0/ip/protocol
at /packets/0/ip/source
dump /packets/0/ip/target
# TCP: the first segment opens the connection, the second answers, the fourth has a request, the last ends it
get /packets/0/ip/body/opens
get /packets/1/ip/body/opens
get /packets/3/ip/body/psh
get /packets/3/ip/body/data
get /packets/4/ip/body/data
get /packets/5/ip/body/fin
at /packets/5/ip/body/fin
dump /packets/2/ip/body
at /packets/3/ip
at /packets/3/ip/body
# the first segment opens nothing, then it is reset too; and again as it was
put /packets/0/ip/body/syn 0
get /packets/0/ip/body/opens
put /packets/0/ip/body/rst 1
get /packets/0/ip/body/rst
get /packets/0/ip/body/fin
bytes 72 2
put /packets/0/ip/body/syn 2
put /packets/0/ip/body/rst 0
put /packets/0/ip/body/syn 1
get /packets/0/ip/body/opens
bytes 72 2
# a packet that is a fragment: its place is written beside the flags, which stay
put /packets/3/ip/ofs_fragment 8191
get /packets/3/ip/ofs_fragment
get /packets/3/ip/dont_fragment
get /packets/3/ip/is_fragment
bytes 266 2
put /packets/3/ip/ofs_fragment 8192
put /packets/3/ip/ofs_fragment 0
put /packets/3/ip/more_fragments 1
set 266 60
get /packets/3/ip/is_fragment
set 266 40
get /packets/3/ip/is_fragment
# another kind of service on a full way
put /packets/3/ip/service 46
put /packets/3/ip/congestion 3
get /packets/3/ip/service
get /packets/3/ip/congestion
bytes 260 2
set 261 00
# a shorter header of TCP: its options are data; a longer one of IPv4: what follows begins later
put /packets/3/ip/body/header_words 5
get /packets/3/ip/body/data
get /packets/3/ip/body/options
put /packets/3/ip/body/header_words 8
get /packets/3/ip/body/data
put /packets/3/ip/header_words 6
get /packets/3/ip/options
at /packets/3/ip/body
get /packets/3/ip/body/source
put /packets/3/ip/header_words 5
get /packets/3/ip/body/source
# another version, and a header that is too short
put /packets/3/ip/version 6
get /packets/3/ip/version
get /packets/3/ip/header_words
put /packets/3/ip/version 4
put /packets/3/ip/header_words 4
get /packets/3/ip/header_words
get /packets/3/ip/body
put /packets/3/ip/header_words 5
get /packets/3/ip/body
quit
