# By Microsoft's BITMAPFILEHEADER and BITMAPINFOHEADER.
meta:
  id: bmp
  file-extension: bmp
  endian: le
seq:
  - id: magic
    contents: BM
  - id: len
    type: u4
  - id: reserved
    size: 4
  - id: ofs_pixels
    type: u4
  - id: len_header
    type: u4
  - id: header
    type: header
    size: len_header - 4
instances:
  height:
    doc: A height below 0 says that the first row is the upper one.
    value: 'header.height < 0 ? -header.height : header.height'
  len_row:
    doc: Rows end at a multiple of four bytes.
    value: (header.width * header.bits + 31) / 32 * 4
  rows:
    pos: ofs_pixels
    size: len_row
    type: row
    repeat: expr
    repeat-expr: height
  top:
    value: 'header.height < 0 ? rows.first : rows.last'
  top_left:
    if: header.bits == 24
    value: top.pixels[0].rgb
types:
  header:
    seq:
      - id: width
        type: s4
      - id: height
        type: s4
      - id: planes
        type: u2
      - id: bits
        type: u2
      - id: compression
        type: u4
        enum: compression
      - id: len_pixels
        type: u4
      - id: x_per_meter
        type: s4
      - id: y_per_meter
        type: s4
      - id: num_colors
        type: u4
      - id: num_important
        type: u4
  row:
    seq:
      - id: pixels
        type: pixel
        repeat: expr
        repeat-expr: _root.header.width
        if: _root.header.bits == 24
  pixel:
    seq:
      - id: blue
        type: u1
      - id: green
        type: u1
      - id: red
        type: u1
    instances:
      rgb:
        value: red << 16 | green << 8 | blue
enums:
  compression:
    0: none
    1: rle8
    2: rle4
    3: masks
