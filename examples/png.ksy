# By the W3C's "Portable Network Graphics (PNG) Specification".
meta:
  id: png
  file-extension: png
  endian: be
  encoding: ASCII
seq:
  - id: magic
    contents: [137, PNG, 13, 10, 26, 10]
  - id: chunks
    type: chunk
    repeat: until
    repeat-until: _.name == "IEND"
    valid:
      expr: _index > 0 or _.name == "IHDR"
instances:
  header:
    value: chunks[0].body.as<header>
  width:
    value: header.width
  height:
    value: header.height
types:
  chunk:
    seq:
      - id: len
        type: u4
        valid:
          max: 0x7fffffff
      - id: name
        type: str
        size: 4
      - id: body
        size: len
        type:
          switch-on: name
          cases:
            '"IHDR"': header
            '"PLTE"': palette
            '"gAMA"': gamma
            '"tEXt"': text
            '"tIME"': time
      - id: crc
        type: u4
    instances:
      is_optional:
        doc: A small first letter says so.
        value: name.substring(0, 1) >= "a"
  header:
    seq:
      - id: width
        type: u4
        valid:
          min: 1
          max: 0x7fffffff
      - id: height
        type: u4
        valid:
          min: 1
          max: 0x7fffffff
      - id: bits
        type: u1
        valid:
          any-of: [1, 2, 4, 8, 16]
      - id: color
        type: u1
        enum: color
      - id: compression
        type: u1
        valid: 0
      - id: filter
        type: u1
        valid: 0
      - id: interlaced
        type: u1
        valid:
          max: 1
    instances:
      channels:
        value: 'color == color::truecolor ? 3 : color == color::truecolor_alpha ? 4 : color == color::grey_alpha ? 2 : 1'
      len_line:
        doc: Bytes of a line of the picture; the first one is its filter.
        value: 1 + (width * bits * channels + 7) / 8
  palette:
    seq:
      - id: colors
        type: color
        repeat: eos
  color:
    seq:
      - id: red
        type: u1
      - id: green
        type: u1
      - id: blue
        type: u1
  gamma:
    seq:
      - id: times_100000
        type: u4
  text:
    seq:
      - id: key
        type: strz
        valid:
          expr: _.length > 0 and _.length < 80
      - id: text
        type: str
        size-eos: true
  time:
    seq:
      - id: year
        type: u2
      - id: month
        type: u1
        valid:
          min: 1
          max: 12
      - id: day
        type: u1
        valid:
          min: 1
          max: 31
      - id: hour
        type: u1
        valid:
          max: 23
      - id: minute
        type: u1
        valid:
          max: 59
      - id: second
        type: u1
        valid:
          max: 60
enums:
  color:
    0: grey
    2: truecolor
    3: palette
    4: grey_alpha
    6: truecolor_alpha
