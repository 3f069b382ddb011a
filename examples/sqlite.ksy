# By https://sqlite.org/fileformat2.html, sections 1.3, 1.6 and 2.1. Of rows that fit in their page.
meta:
  id: sqlite
  title: SQLite 3 database
  file-extension: [db, sqlite]
  endian: be
  encoding: UTF-8
seq:
  - id: magic
    contents: [SQLite format 3, 0]
  - id: len_page_stored
    type: u2
  - id: write_version
    type: u1
  - id: read_version
    type: u1
  - id: reserved
    type: u1
  - id: fractions
    size: 3
  - id: changes
    type: u4
  - id: num_pages
    type: u4
  - id: first_free
    type: u4
  - id: num_free
    type: u4
  - id: schema_cookie
    type: u4
  - id: schema_format
    type: u4
  - id: cache
    type: u4
  - id: largest_root
    type: u4
  - id: encoding
    type: u4
    enum: encoding
  - id: user_version
    type: u4
  - id: vacuum
    type: u4
  - id: application
    type: u4
  - id: unused
    size: 20
  - id: valid_for
    type: u4
  - id: library
    type: u4
instances:
  len_page:
    value: 'len_page_stored == 1 ? 65536 : len_page_stored'
  pages:
    pos: 0
    size: len_page
    type: page(_index)
    repeat: expr
    repeat-expr: num_pages
  schema:
    doc: The first page holds the table of all tables.
    value: pages[0].tree
types:
  page:
    params:
      - id: number
        type: u4
    instances:
      tree:
        doc: Places in a page count from its start, also behind the file's header.
        pos: 'number == 0 ? 100 : 0'
        type: tree
  tree:
    seq:
      - id: kind
        type: u1
        enum: kind
      - id: first_free
        type: u2
      - id: num_cells
        type: u2
      - id: ofs_cells
        type: u2
      - id: fragmented
        type: u1
      - id: right
        type: u4
        if: kind == kind::inner_table or kind == kind::inner_index
      - id: cells
        type:
          switch-on: kind
          cases:
            kind::table: row_place
            kind::inner_table: branch_place
            _: other_place
        repeat: expr
        repeat-expr: num_cells
  row_place:
    seq:
      - id: ofs
        type: u2
    instances:
      row:
        pos: ofs
        type: row
  branch_place:
    seq:
      - id: ofs
        type: u2
    instances:
      branch:
        pos: ofs
        type: branch
  other_place:
    seq:
      - id: ofs
        type: u2
  branch:
    seq:
      - id: page
        type: u4
      - id: largest
        type: varint
    instances:
      tree:
        value: _root.pages[page - 1].tree
  row:
    seq:
      - id: len
        type: varint
      - id: id
        type: varint
      - id: record
        type: record
        size: len.value
  record:
    seq:
      - id: len_head
        type: varint
      - id: head
        type: head
        size: len_head.value - len_head.digits.size
      - id: columns
        type: column(head.kinds[_index].value)
        repeat: expr
        repeat-expr: head.kinds.size
  head:
    seq:
      - id: kinds
        type: varint
        repeat: eos
  column:
    params:
      - id: kind
        type: u4
    seq:
      - id: value
        type:
          switch-on: 'kind < 12 ? kind : 12 + kind % 2'
          cases:
            0: missing
            1: s1
            2: s2
            3: s3
            4: s4
            5: s6
            6: s8
            7: real
            8: zero
            9: one
            12: blob((kind - 12) / 2)
            13: text((kind - 13) / 2)
  missing:
    seq: []
  zero:
    instances:
      number:
        value: 0
  one:
    instances:
      number:
        value: 1
  s3:
    seq:
      - id: high
        type: s1
      - id: low
        type: u2
    instances:
      number:
        value: high * 65536 + low
  s6:
    seq:
      - id: high
        type: s2
      - id: low
        type: u4
    instances:
      number:
        value: high << 32 | low
  real:
    seq:
      - id: bits
        type: u8
        doc: Of a float of 64 bits.
  blob:
    params:
      - id: len
        type: u4
    seq:
      - id: bytes
        size: len
  text:
    params:
      - id: len
        type: u4
    seq:
      - id: text
        type: str
        size: len
  varint:
    doc: Seven bits a byte, the highest first; the ninth byte has eight.
    seq:
      - id: digits
        type: digit(_index)
        repeat: until
        repeat-until: _.byte < 128 or _index == 8
    instances:
      value:
        value: digits.last.sum
  digit:
    params:
      - id: number
        type: u4
    seq:
      - id: byte
        type: u1
    instances:
      before:
        value: 'number == 0 ? 0 : _parent.digits[number - 1].sum'
      sum:
        value: 'number == 8 ? before << 8 | byte : before << 7 | byte & 127'
enums:
  encoding:
    1: utf8
    2: utf16le
    3: utf16be
  kind:
    2: inner_index
    5: inner_table
    10: index
    13: table
