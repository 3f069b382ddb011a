# By ITU-T T.81, annex B, and JFIF 1.02.
meta:
  id: jpeg
  title: JPEG picture, up to its first scan
  file-extension: [jpg, jpeg]
  endian: be
  encoding: ASCII
seq:
  - id: segments
    type: segment
    repeat: until
    repeat-until: _.marker == marker::scan
  - id: coded
    size: _io.size - _io.pos - 2
  - id: end
    contents: [0xff, 0xd9]
types:
  segment:
    seq:
      - id: prefix
        contents: [0xff]
      - id: marker
        type: u1
        enum: marker
      - id: len
        type: u2
        if: marker != marker::begin
        valid:
          min: 2
      - id: body
        size: len - 2
        if: marker != marker::begin
        type:
          switch-on: marker
          cases:
            marker::app0: jfif
            marker::steps: step_tables
            marker::frame: frame
            marker::codes: code_tables
            marker::scan: scan
  jfif:
    seq:
      - id: magic
        type: strz
        valid: '"JFIF"'
      - id: major
        type: u1
      - id: minor
        type: u1
      - id: unit
        type: u1
        enum: unit
      - id: across
        type: u2
      - id: down
        type: u2
      - id: icon_width
        type: u1
      - id: icon_height
        type: u1
  step_tables:
    seq:
      - id: tables
        type: step_table
        repeat: eos
  step_table:
    doc: How coarse each of the 64 numbers of a block is, in the order in which they are coded.
    seq:
      - id: precision
        type: b4
        enum: precision
        valid:
          any-of: [precision::bits8, precision::bits16]
      - id: number
        type: b4
        valid:
          max: 3
      - id: small
        type: u1
        repeat: expr
        repeat-expr: 64
        if: precision == precision::bits8
      - id: large
        type: u2
        repeat: expr
        repeat-expr: 64
        if: precision == precision::bits16
  frame:
    seq:
      - id: sample_bits
        type: u1
        valid: 8
      - id: height
        type: u2
      - id: width
        type: u2
      - id: num_components
        type: u1
      - id: components
        type: component
        repeat: expr
        repeat-expr: num_components
    instances:
      block_width:
        doc: Of all components together, where the first has the most samples.
        value: 8 * components[0].across
      block_height:
        value: 8 * components[0].down
  component:
    seq:
      - id: number
        type: u1
      - id: across
        type: b4
        valid:
          min: 1
          max: 4
      - id: down
        type: b4
        valid:
          min: 1
          max: 4
      - id: steps
        type: u1
  code_tables:
    seq:
      - id: tables
        type: code_table
        repeat: eos
  code_table:
    seq:
      - id: kind
        type: b4
        enum: kind
      - id: number
        type: b4
      - id: counts
        type: u1
        repeat: expr
        repeat-expr: 16
        doc: How many codes have 1 bit, 2 bits, and so on.
      - id: codes
        type: code
        repeat: expr
        repeat-expr: >-
          counts[0] + counts[1] + counts[2] + counts[3] + counts[4] + counts[5] + counts[6] + counts[7] +
          counts[8] + counts[9] + counts[10] + counts[11] + counts[12] + counts[13] + counts[14] + counts[15]
  code:
    seq:
      - id: zeros
        type: b4
        doc: How many numbers before it are zero.
      - id: width
        type: b4
        doc: How many bits of the number follow.
  scan:
    seq:
      - id: num_components
        type: u1
      - id: components
        type: scan_component
        repeat: expr
        repeat-expr: num_components
      - id: first
        type: u1
      - id: last
        type: u1
      - id: high
        type: b4
      - id: low
        type: b4
  scan_component:
    seq:
      - id: number
        type: u1
      - id: dc_table
        type: b4
        valid:
          max: 3
      - id: ac_table
        type: b4
        valid:
          max: 3
enums:
  marker:
    0xc0: frame
    0xc4: codes
    0xd8: begin
    0xd9: end
    0xda: scan
    0xdb: steps
    0xe0: app0
    0xfe: comment
  unit:
    0: none
    1: inch
    2: centimetre
  precision:
    0: bits8
    1: bits16
  kind:
    0: dc
    1: ac
