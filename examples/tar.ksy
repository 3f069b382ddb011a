# By POSIX.1-2017, "ustar Interchange Format" (of `pax`).
meta:
  id: tar
  file-extension: tar
  encoding: UTF-8
seq:
  - id: members
    type: member
    repeat: until
    repeat-until: _.is_end
types:
  member:
    seq:
      - id: header
        type: header
        size: 512
      - id: body
        size: len
      - id: pad
        size: -len % 512
    instances:
      is_end:
        doc: A block of zeros ends the archive.
        value: header.name == ""
      len:
        value: 'is_end ? 0 : header.octal_len.to_i(8)'
      text:
        value: body.to_s("UTF-8")
  header:
    seq:
      - id: name
        type: str
        size: 100
        terminator: 0
      - id: octal_mode
        type: str
        size: 8
        terminator: 0
      - id: octal_uid
        type: str
        size: 8
        terminator: 0
      - id: octal_gid
        type: str
        size: 8
        terminator: 0
      - id: octal_len
        type: str
        size: 12
        terminator: 0
      - id: octal_time
        type: str
        size: 12
        terminator: 0
      - id: octal_checksum
        type: str
        size: 8
        terminator: 0
      - id: kind
        type: u1
        enum: kind
      - id: link
        type: str
        size: 100
        terminator: 0
      - id: magic
        contents: [ustar, 0]
      - id: version
        type: str
        size: 2
      - id: user
        type: str
        size: 32
        terminator: 0
      - id: group
        type: str
        size: 32
        terminator: 0
      - id: major
        type: str
        size: 8
        terminator: 0
      - id: minor
        type: str
        size: 8
        terminator: 0
      - id: prefix
        type: str
        size: 155
        terminator: 0
    instances:
      mode:
        value: octal_mode.to_i(8)
      time:
        value: octal_time.to_i(8)
      checksum:
        value: octal_checksum.to_i(8)
      digits:
        doc: Every byte of the header again, each with the sum up to it.
        pos: 0
        type: digit(_index)
        repeat: eos
      sum:
        value: digits.last.sum
      is_sound:
        value: sum == checksum
  digit:
    params:
      - id: number
        type: u4
    seq:
      - id: byte
        type: u1
    instances:
      sum:
        doc: The checksum's own bytes count as spaces.
        value: 'before + (number >= 148 and number < 156 ? 32 : byte)'
      before:
        value: 'number == 0 ? 0 : _parent.digits[number - 1].sum'
enums:
  kind:
    0: old_file
    0x30: file
    0x31: hard_link
    0x32: symbolic_link
    0x35: directory
