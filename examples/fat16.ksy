# By Microsoft's "FAT32 File System Specification", version 1.03, which has FAT16 too.
meta:
  id: fat16
  title: FAT16 disk
  endian: le
  encoding: ASCII
seq:
  - id: boot
    type: boot_sector
    size: 512
instances:
  len_cluster:
    value: boot.num_sectors_per_cluster * boot.len_sector
  ofs_fats:
    value: boot.num_reserved_sectors * boot.len_sector
  ofs_root:
    value: ofs_fats + boot.num_fats * boot.num_sectors_per_fat * boot.len_sector
  ofs_clusters:
    value: ofs_root + boot.num_root_entries * 32
  fats:
    doc: The table of clusters, and its copies.
    pos: ofs_fats
    size: boot.num_sectors_per_fat * boot.len_sector
    type: fat
    repeat: expr
    repeat-expr: boot.num_fats
  raw_fats:
    pos: ofs_fats
    size: boot.num_sectors_per_fat * boot.len_sector
    repeat: expr
    repeat-expr: boot.num_fats
  fats_agree:
    value: raw_fats[0] == raw_fats[1]
  root:
    pos: ofs_root
    size: boot.num_root_entries * 32
    type: directory
types:
  boot_sector:
    seq:
      - id: jump
        size: 3
      - id: maker
        type: str
        size: 8
      - id: len_sector
        type: u2
        valid:
          any-of: [512, 1024, 2048, 4096]
      - id: num_sectors_per_cluster
        type: u1
        valid:
          any-of: [1, 2, 4, 8, 16, 32, 64, 128]
      - id: num_reserved_sectors
        type: u2
        valid:
          min: 1
      - id: num_fats
        type: u1
        valid:
          min: 1
      - id: num_root_entries
        type: u2
      - id: num_sectors
        type: u2
      - id: media
        type: u1
      - id: num_sectors_per_fat
        type: u2
      - id: num_sectors_per_track
        type: u2
      - id: num_heads
        type: u2
      - id: num_hidden_sectors
        type: u4
      - id: num_sectors_long
        type: u4
      - id: drive
        type: u1
      - id: reserved
        type: u1
      - id: has_label
        type: u1
      - id: serial
        type: u4
      - id: label
        type: str
        size: 11
      - id: kind
        type: str
        size: 8
        valid: '"FAT16   "'
      - id: code
        size: 448
      - id: signature
        contents: [0x55, 0xaa]
  fat:
    seq:
      - id: next
        doc: The cluster after each one; from 0xfff8 on it is the last, 0 is a free one.
        type: u2
        repeat: eos
  directory:
    seq:
      - id: entries
        type: entry
        repeat: eos
  entry:
    seq:
      - id: name
        size: 8
      - id: extension
        size: 3
      - id: attributes
        type: u1
      - id: reserved
        size: 10
      - id: time
        type: u2
      - id: date
        type: u2
      - id: first_cluster
        type: u2
      - id: len_file
        type: u4
    instances:
      full_name:
        value: name.to_s("ASCII") + "." + extension.to_s("ASCII")
      is_deleted:
        value: name[0] == 0xe5
      is_directory:
        value: attributes & 0x10 != 0
      year:
        value: 1980 + (date >> 9)
      num_clusters:
        value: (len_file + _root.len_cluster - 1) / _root.len_cluster
      chain:
        doc: The clusters of the file. Each element takes no bytes here, and finds its cluster from the element before it.
        pos: 0
        size: 0
        type: link(_index)
        repeat: expr
        repeat-expr: num_clusters
      has_end:
        doc: Whether the last cluster that the length asks for is the last of the chain.
        value: _root.fats[0].next[chain.last.cluster] >= 0xfff8
        if: num_clusters > 0
      directory:
        io: _root._io
        pos: _root.ofs_clusters + (first_cluster - 2) * _root.len_cluster
        size: _root.len_cluster
        type: directory
        if: is_directory
  link:
    params:
      - id: number
        type: u4
    instances:
      cluster:
        value: 'number == 0 ? _parent.first_cluster : _root.fats[0].next[_parent.chain[number - 1].cluster]'
        valid:
          min: 2
          max: 0xffef
      len_rest:
        value: _parent.len_file - number * _root.len_cluster
      body:
        io: _root._io
        pos: _root.ofs_clusters + (cluster - 2) * _root.len_cluster
        size: 'len_rest < _root.len_cluster ? len_rest : _root.len_cluster'
      text:
        value: body.to_s("ASCII")
