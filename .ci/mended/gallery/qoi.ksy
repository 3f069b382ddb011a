meta:
  id: qoi
  title: Quite OK Image
  file-extension: qoi
  license: CC0-1.0
  endian: be
doc-ref: https://qoiformat.org/qoi-specification.pdf
seq:
  - id: header
    type: header
  - id: chunks
    type: chunk
    repeat: until
    repeat-until: _.is_end
types:
  header:
    seq:
      - id: magic
        contents: qoif
      - id: width
        type: u4
      - id: height
        type: u4
      - id: channels
        type: u1
        enum: channels
        valid:
          in-enum: true
      - id: colorspace
        type: u1
        enum: colorspace
        valid:
          in-enum: true
  chunk:
    seq:
      - id: tag
        type: u1
      - id: body
        type:
          switch-on: 'tag >= 0xfe ? tag : tag >> 6'
          cases:
            0xfe: op_rgb
            0xff: op_rgba
            2: op_luma
      - id: end_marker
        size: 7
        if: tag == 0
    instances:
      is_end:
        value: tag == 0 and end_marker == [0, 0, 0, 0, 0, 0, 1]
      op:
        value: tag >> 6
        enum: op
      index:
        value: tag & 0x3f
        if: op == op::index
      run:
        value: (tag & 0x3f) + 1
        if: op == op::run and tag < 0xfe
      dr:
        value: (tag >> 4 & 3) - 2
        if: op == op::diff
  op_rgb:
    seq:
      - id: r
        type: u1
      - id: g
        type: u1
      - id: b
        type: u1
  op_rgba:
    seq:
      - id: r
        type: u1
      - id: g
        type: u1
      - id: b
        type: u1
      - id: a
        type: u1
  op_luma:
    seq:
      - id: dr_dg
        type: b4
      - id: db_dg
        type: b4
enums:
  channels:
    3: rgb
    4: rgba
  colorspace:
    0: srgb
    1: linear
  op:
    0: index
    1: diff
    2: luma
    3: run
