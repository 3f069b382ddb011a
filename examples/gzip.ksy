# By RFC 1952. Of one member.
meta:
  id: gzip
  file-extension: gz
  endian: le
  encoding: ASCII
seq:
  - id: magic
    contents: [0x1f, 0x8b]
  - id: method
    type: u1
    enum: method
  - id: flags
    type: u1
  - id: time
    type: u4
  - id: extra_flags
    type: u1
  - id: system
    type: u1
    enum: system
  - id: extra
    type: extra
    if: flags & 4 != 0
  - id: name
    type: strz
    if: flags & 8 != 0
  - id: comment
    type: strz
    if: flags & 16 != 0
  - id: crc16
    type: u2
    if: flags & 2 != 0
  - id: body
    size: _io.size - _io.pos - 8
instances:
  footer:
    doc: The last eight bytes of the file.
    pos: _io.size - 8
    type: footer
  percent:
    if: footer.len != 0
    value: body.length * 100 / footer.len
types:
  extra:
    seq:
      - id: len
        type: u2
      - id: fields
        type: fields
        size: len
  fields:
    seq:
      - id: list
        type: field
        repeat: eos
  field:
    seq:
      - id: id
        type: str
        size: 2
      - id: len
        type: u2
      - id: data
        size: len
  footer:
    seq:
      - id: crc32
        type: u4
      - id: len
        type: u4
enums:
  method:
    8: deflate
  system:
    0: fat
    3: unix
    11: ntfs
    255: unknown
