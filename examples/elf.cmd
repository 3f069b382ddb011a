# the header
get /class
get /e_machine
get /e_entry
# segments: the first is loaded, and the program begins in it
get /segments/0/type
get /segments/0/has_entry
# sections: their names stand in the last one, which is found by its number
get /sections
get /sections/2/name
get /sections/2/body
get /sections/3/type
get /sections/3/body
# symbols: each has its name in the section that the table is linked to
get /sections/5/body
get /sections/5/body/symbols
get /sections/5/body/symbols/3/name
get /sections/5/body/symbols/3/kind
get /sections/5/body/symbols/3/section_name
# bits: who sees a symbol, what may be done with a segment, and what a section is
get /sections/5/body/symbols/3/bind
get /sections/5/body/symbols/3/visibility
at /sections/5/body/symbols/3/kind
at /sections/5/body/symbols/3/visibility
dump /segments/0/flags
at /segments/0/flags/execute
dump /sections/4/flags
get /sections/1/flags/execute
get /sections/1/flags/write
# where things are, and some of them whole
ls /sections/3
at /sections
at /sections/2/name
at /sections/2/body
at /sections/3/body
dump /segments/1
dump /sections/6/body
# the program may not be run, and may again
get /segments/0/executable
put /segments/0/flags/execute 0
get /segments/0/executable
get /segments/0/flags/read
bytes 64 8
put /segments/0/flags/execute 1
# a symbol gives way to others of its name, and other files don't see it; then it is as it was
put /sections/5/body/symbols/3/bind 2
put /sections/5/body/symbols/3/visibility 2
get /sections/5/body/symbols/3/bind
get /sections/5/body/symbols/3/kind
get /sections/5/body/symbols/3/visibility
bytes 396 2
put /sections/5/body/symbols/3/bind 16
put /sections/5/body/symbols/3/bind 1
put /sections/5/body/symbols/3/visibility 0
bytes 396 2
# the texts of a section are no texts, and are again: one bit is no number
put /sections/4/flags/strings 0
set 880 10
get /sections/4/flags/strings
get /sections/4/flags/merge
set 880 30
get /sections/4/flags/strings
# a file of 32 bits, of another version, with segments of another size; each is mended
put /class 1
get /class
put /class 2
get /class
put /ident_version 2
get /ident_version
get /e_version
put /ident_version 1
get /e_version
put /e_phentsize 32
get /e_phentsize
get /segments/1/type
put /e_phentsize 56
get /segments/1/type
# a segment that is longer in the file than in memory, and one whose alignment is no power of two
put /segments/0/len_memory 274
get /segments/0/len_memory
get /segments/0/has_entry
put /segments/0/len_memory 275
get /segments/0/has_entry
put /segments/0/align 4097
dump /segments/0/align
put /segments/0/align 4096
dump /segments/0/align
# names in a section that isn't there
put /e_shstrndx 8
get /e_shstrndx
get /sections/2/name
put /e_shstrndx 7
get /sections/2/name
# the section headers 64 bytes further: the last one is past the end of the file; then one fewer
set 40 a802000000000000
get /sections/1/name
set 60 07000600
get /sections/1/name
quit
