# the disk, its files, and one in a directory
get /boot/label
get /boot/num_sectors_per_cluster
get /fats
get /root/entries/1/full_name
get /root/entries/1/year
get /root/entries/3/is_directory
get /root/entries/3/has_end
get /root/entries/3/directory/entries/2/full_name
get /root/entries/3/directory/entries/2/chain/0/text
ls /root/entries/1
at /root
at /root/entries/1/len_file
dump /root/entries/1
# damage: a file of three clusters, and the table has none after the first
get /root/entries/1/chain
get /root/entries/1/chain/0/cluster
get /root/entries/1/chain/1/cluster
get /root/entries/1/has_end
get /fats/0/next/2
# the copy of the table has it: put it back
get /fats_agree
get /fats/1/next/2
at /fats/0/next/2
put /fats/0/next/2 5
get /fats_agree
get /root/entries/1/has_end
get /root/entries/1/chain/1/cluster
at /root/entries/1/chain/1/body
get /root/entries/1/chain/2/text
# a deleted file: it has lost its first letter, and its chain; but it was written in one piece
get /root/entries/2/is_deleted
get /root/entries/2/first_cluster
get /root/entries/2/chain
get /root/entries/2/chain/1/cluster
get /fats/0/next/6
get /fats/0/next/7
at /root/entries/2/name
set 16960 4e
get /root/entries/2/full_name
# the chain again, in both tables
put /fats/0/next/6 7
put /fats/0/next/7 65535
put /fats/1/next/6 7
put /fats/1/next/7 65535
get /root/entries/2/has_end
get /root/entries/2/chain/1/text
get /fats_agree
stats
size
quit
