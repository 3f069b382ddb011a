# By PKWARE's APPNOTE.TXT, 4.3 and 4.4. Of files whose sizes stand before them (bit 3 of `flags` is 0).
meta:
  id: zip
  file-extension: zip
  endian: le
  encoding: UTF-8
seq:
  - id: sections
    type: section
    repeat: until
    repeat-until: _.kind == kind::end
instances:
  end:
    value: sections.last.body.as<end>
  num_entries:
    value: end.num_entries
types:
  section:
    seq:
      - id: magic
        contents: PK
      - id: kind
        type: u2
        enum: kind
        valid:
          any-of: [kind::file, kind::entry, kind::end]
      - id: body
        type:
          switch-on: kind
          cases:
            kind::file: file
            kind::entry: entry
            kind::end: end
  file:
    seq:
      - id: version
        type: u2
        valid:
          max: 63
      - id: flags
        type: u2
        valid:
          expr: _ & 8 == 0
      - id: method
        type: u2
        enum: method
        valid:
          any-of: [method::stored, method::deflated]
      - id: time
        type: u2
      - id: date
        type: u2
      - id: crc32
        type: u4
      - id: len_body
        type: u4
      - id: len_open
        type: u4
        valid:
          expr: method != method::stored or _ == len_body
      - id: len_name
        type: u2
      - id: len_extra
        type: u2
      - id: name
        type: str
        size: len_name
      - id: extra
        size: len_extra
      - id: body
        size: len_body
    instances:
      text:
        if: method == method::stored
        value: body.to_s("UTF-8")
      year:
        value: (date >> 9) + 1980
      month:
        value: date >> 5 & 15
        valid:
          min: 1
          max: 12
      day:
        value: date & 31
        valid:
          min: 1
      clock:
        doc: Hours and minutes; seconds are stored by twos.
        value: (time >> 11).to_s + ":" + (time >> 5 & 63).to_s
  entry:
    seq:
      - id: made_by
        type: u2
      - id: version
        type: u2
      - id: flags
        type: u2
      - id: method
        type: u2
        enum: method
      - id: time
        type: u2
      - id: date
        type: u2
      - id: crc32
        type: u4
      - id: len_body
        type: u4
      - id: len_open
        type: u4
      - id: len_name
        type: u2
      - id: len_extra
        type: u2
      - id: len_comment
        type: u2
      - id: disk
        type: u2
      - id: internal
        type: u2
      - id: external
        type: u4
      - id: ofs_file
        type: u4
      - id: name
        type: str
        size: len_name
      - id: extra
        size: len_extra
      - id: comment
        type: str
        size: len_comment
    instances:
      section:
        doc: The file's own section, at the place that the directory names.
        io: _root._io
        pos: ofs_file
        type: section
        valid:
          expr: _.kind == kind::file
      agrees:
        value: section.body.as<file>.name == name and section.body.as<file>.crc32 == crc32
      percent:
        if: len_open != 0
        value: len_body * 100 / len_open
  directory:
    seq:
      - id: sections
        type: section
        repeat: eos
  end:
    seq:
      - id: disk
        type: u2
      - id: disk_of_directory
        type: u2
      - id: num_here
        type: u2
      - id: num_entries
        type: u2
      - id: len_directory
        type: u4
      - id: ofs_directory
        type: u4
      - id: len_comment
        type: u2
      - id: comment
        type: str
        size: len_comment
    instances:
      directory:
        io: _root._io
        pos: ofs_directory
        size: len_directory
        type: directory
        valid:
          expr: _.sections.size == num_entries
enums:
  kind:
    0x0403: file
    0x0201: entry
    0x0605: end
  method:
    0: stored
    8: deflated
