meta:
  id: tiff
  title: Tagged Image File Format
  file-extension:
    - tif
    - tiff
  license: CC0-1.0
  ks-version: 0.9
doc-ref: TIFF Revision 6.0, Adobe, 1992
seq:
  - id: byte_order
    type: u2le
    enum: byte_order
  - id: body
    type: tiff_body
types:
  tiff_body:
    meta:
      endian:
        switch-on: _root.byte_order
        cases:
          byte_order::little: le
          byte_order::big: be
    seq:
      - id: version
        type: u2
        valid: 42
      - id: ofs_ifd0
        type: u4
    instances:
      ifd0:
        pos: ofs_ifd0
        type: ifd
    types:
      ifd:
        seq:
          - id: num_fields
            type: u2
          - id: fields
            type: ifd_field
            repeat: expr
            repeat-expr: num_fields
          - id: ofs_next
            type: u4
        instances:
          next:
            pos: ofs_next
            type: ifd
            if: ofs_next != 0
      ifd_field:
        seq:
          - id: tag
            type: u2
            enum: tag
          - id: field_type
            type: u2
            enum: field_type
          - id: num_values
            type: u4
          - id: ofs_or_value
            type: u4
enums:
  byte_order:
    0x4949: little
    0x4d4d: big
  tag:
    256: image_width
    257: image_height
    259: compression
    273: strip_offsets
  field_type:
    1: byte
    2: ascii_string
    3: short_word
    4: long_word
    5: rational
