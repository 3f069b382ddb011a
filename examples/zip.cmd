# a section for each file, then one for each entry of the directory, then the end
get /sections
get /num_entries
get /end
get /sections/6/body/comment
get /sections/6/body/directory/sections
# a file that is stored as it is, and one that is deflated
get /sections/0/body/name
get /sections/0/body/text
get /sections/0/body/clock
get /sections/2/body/method
get /sections/2/body/text
get /sections/2/body/body
# an entry of the directory, and the file that it points to
get /sections/5/body/name
get /sections/5/body/comment
get /sections/5/body/percent
get /sections/5/body/section/body/crc32
get /sections/3/body/agrees
# what an entry has, where, and some of it whole
ls /sections/5
at /sections/0/body/body
at /sections/6
at /sections/5/body/section
at /sections/6/body/directory
dump /end
dump /sections/1
# deflated, which it is not, and as it was
put /sections/0/body/method 8
at /sections/0/body/text
bytes 6 4
put /sections/0/body/method 0
get /sections/0/body/text
# a file that is longer than its bytes, of month 0, of a method that isn't described; each is mended
put /sections/0/body/len_open 6
get /sections/0/body/len_open
get /sections/0/body/text
put /sections/0/body/len_open 5
get /sections/0/body/len_open
get /sections/0/body/month
put /sections/0/body/date 22557
get /sections/0/body/month
put /sections/0/body/date 22621
get /sections/0/body/month
put /sections/0/body/method 9
get /sections/0/body/method
get /sections/0/body/text
put /sections/0/body/method 0
get /sections/0/body/method
# sizes that stand behind the file, which this description doesn't read
put /sections/0/body/flags 8
get /sections/0/body/flags
put /sections/0/body/flags 0
# an entry that points to the directory in place of a file
put /sections/3/body/ofs_file 136
get /sections/3/body/section
at /sections/3/body/section
get /sections/3/body/agrees
put /sections/3/body/ofs_file 0
get /sections/3/body/section
# a directory of three entries that should have four
put /sections/6/body/num_entries 4
get /num_entries
get /sections/6/body/directory
get /sections/6/body/directory/sections
put /sections/6/body/num_entries 3
get /sections/6/body/directory
# another name in the file, but not in its entry
set 30 62
get /sections/0/body/name
get /sections/3/body/agrees
quit
