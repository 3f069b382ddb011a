# By Microsoft's "Icons" (1995), and "Windows Vista Icons" for images in PNG.
meta:
  id: ico
  title: Windows icon
  file-extension: ico
  endian: le
  encoding: ASCII
seq:
  - id: reserved
    contents: [0, 0]
  - id: kind
    type: u2
    enum: kind
    valid:
      any-of: [kind::icon, kind::cursor]
  - id: num_images
    type: u2
    valid:
      min: 1
  - id: entries
    type: entry
    repeat: expr
    repeat-expr: num_images
instances:
  len_header:
    doc: Images begin behind the header.
    value: 6 + 16 * num_images
types:
  entry:
    seq:
      - id: width
        doc: 0 stands for 256, also for the height.
        type: u1
      - id: height
        type: u1
      - id: num_colors
        type: u1
      - id: reserved
        type: u1
        valid: 0
      - id: num_planes
        type: u2
        valid:
          max: 1
      - id: num_bits
        type: u2
      - id: len_image
        type: u4
      - id: ofs_image
        type: u4
        valid:
          min: _root.len_header
          max: _io.size - len_image
    instances:
      mark:
        doc: The first four bytes say which kind of image it is.
        pos: ofs_image
        type: u4
      image:
        pos: ofs_image
        size: len_image
        type:
          switch-on: mark
          cases:
            40: bitmap
            0x474e5089: png
      is_right:
        doc: Whether the entry and the image say the same.
        value: image.width == width and image.height == height
  bitmap:
    seq:
      - id: len_header
        type: u4
        valid: 40
      - id: width
        type: s4
      - id: height_both
        doc: That of the colours and of the mask below them.
        type: s4
      - id: num_planes
        type: u2
      - id: num_bits
        type: u2
      - id: compression
        type: u4
        valid: 0
      - id: len_pixels
        type: u4
      - id: resolution
        size: 8
      - id: num_colors
        type: u4
      - id: num_important
        type: u4
      - id: rows
        type: row
        size: width * 4
        repeat: expr
        repeat-expr: height
        if: num_bits == 32
      - id: mask
        size-eos: true
    instances:
      height:
        value: height_both / 2
  row:
    seq:
      - id: pixels
        type: pixel
        repeat: eos
  pixel:
    seq:
      - id: blue
        type: u1
      - id: green
        type: u1
      - id: red
        type: u1
      - id: alpha
        type: u1
  png:
    seq:
      - id: magic
        contents: [137, PNG, 13, 10, 26, 10]
      - id: len_chunk
        type: u4be
        valid: 13
      - id: name
        contents: IHDR
      - id: width
        type: u4be
      - id: height
        type: u4be
      - id: rest
        size-eos: true
enums:
  kind:
    1: icon
    2: cursor
