# the header stands where the old DOS header says
get /ofs_header
get /header/machine
get /header/is_library
get /header/optional/kind
get /header/optional/base
get /header/optional/entry
get /header/sections
get /header/sections/1/name
get /header/sections/0/executable
# the exports are in the section whose memory holds their address
get /header/sections/0/exports
get /header/sections/1/shift
get /header/sections/1/exports/name
get /header/sections/1/exports/names
get /header/sections/1/exports/names/1/name
get /header/sections/1/exports/names/1/address
# what there is, where, and some of it whole
ls /
at /header
at /header/sections/0/exports
at /header/sections/1/exports
at /header/sections/1/exports/name
at /header/optional/ofs_data
dump /header/optional/tables/0
dump /header/sections/0
# for another machine, and again for this one
put /header/machine 43620
get /header/machine
bytes 124 4
put /header/machine 34404
# the first name a byte further
set 1598 4b200000
get /header/sections/1/exports/names/0/name
# without the letters PE
set 120 4e45
get /header/magic
quit
