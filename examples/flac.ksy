# By RFC 9639 (FLAC) and the Vorbis I specification, chapter 5.
meta:
  id: flac
  title: FLAC, its metadata and the header of its first frame
  file-extension: flac
  endian: be
  encoding: UTF-8
seq:
  - id: magic
    contents: fLaC
  - id: blocks
    type: block
    repeat: until
    repeat-until: _.last
  - id: frame
    type: frame_header
  - id: coded
    size-eos: true
types:
  block:
    seq:
      - id: last
        type: b1
      - id: kind
        type: b7
        enum: block
      - id: len
        type: b24
      - id: body
        size: len
        type:
          switch-on: kind
          cases:
            block::stream: stream
            block::comments: comments
  stream:
    seq:
      - id: block_least
        type: u2
        valid:
          min: 16
      - id: block_most
        type: u2
        valid:
          min: block_least
      - id: frame_least
        type: b24
      - id: frame_most
        type: b24
      - id: rate
        type: b20
      - id: channels_less_1
        type: b3
      - id: bits_less_1
        type: b5
        valid:
          min: 3
      - id: samples
        type: b36
      - id: md5
        size: 16
    instances:
      channels:
        value: channels_less_1 + 1
      bits:
        value: bits_less_1 + 1
      milliseconds:
        value: samples * 1000 / rate
  comments:
    doc: Lengths are little endian here, as in Vorbis.
    seq:
      - id: len_maker
        type: u4le
      - id: maker
        type: str
        size: len_maker
      - id: num_texts
        type: u4le
      - id: texts
        type: comment
        repeat: expr
        repeat-expr: num_texts
  comment:
    seq:
      - id: len
        type: u4le
      - id: text
        type: str
        size: len
  frame_header:
    seq:
      - id: sync
        type: b14
        valid: 0x3ffe
      - id: reserved
        type: b1
        valid: false
      - id: is_variable
        type: b1
      - id: block_code
        type: b4
      - id: rate_code
        type: b4
      - id: channels_code
        type: b4
      - id: bits_code
        type: b3
        enum: bits
      - id: reserved_2
        type: b1
        valid: false
      - id: number
        type: u1
        valid:
          max: 127
      - id: crc
        type: u1
enums:
  block:
    0: stream
    1: padding
    2: application
    3: seek
    4: comments
    5: cue
    6: picture
    127: never
  bits:
    0: as_stream
    1: bits8
    2: bits12
    4: bits16
    5: bits20
    6: bits24
    7: bits32
