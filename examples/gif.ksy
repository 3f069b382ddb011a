# By CompuServe's "Graphics Interchange Format, Version 89a".
meta:
  id: gif
  file-extension: gif
  endian: le
  encoding: ASCII
seq:
  - id: magic
    contents: GIF
  - id: version
    type: str
    size: 3
    valid:
      any-of: ['"87a"', '"89a"']
  - id: width
    type: u2
  - id: height
    type: u2
  - id: flags
    type: u1
  - id: background
    type: u1
    valid:
      expr: flags < 0x80 or _ < 2 << (flags & 7)
  - id: aspect
    type: u1
  - id: palette
    type: palette(flags)
    if: flags >= 0x80
  - id: blocks
    type: block(_index)
    repeat: until
    repeat-until: _.kind == kind::trailer
instances:
  background_color:
    value: palette.colors[background].rgb
types:
  palette:
    params:
      - id: flags
        type: u4
    seq:
      - id: colors
        type: color
        repeat: expr
        repeat-expr: 2 << (flags & 7)
  color:
    seq:
      - id: red
        type: u1
      - id: green
        type: u1
      - id: blue
        type: u1
    instances:
      rgb:
        value: red << 16 | green << 8 | blue
  block:
    params:
      - id: number
        type: u4
    seq:
      - id: kind
        type: u1
        enum: kind
        valid:
          any-of: [kind::extension, kind::image, kind::trailer]
      - id: body
        type:
          switch-on: kind
          cases:
            kind::extension: extension
            kind::image: image
  extension:
    seq:
      - id: label
        type: u1
        enum: label
      - id: body
        type:
          switch-on: label
          cases:
            label::control: control
            label::application: application
            _: pieces
  control:
    seq:
      - id: len
        contents: [4]
      - id: flags
        type: u1
      - id: delay
        type: u2
        doc: In hundredths of a second.
      - id: transparent
        type: u1
      - id: end
        contents: [0]
    instances:
      disposal:
        value: flags >> 2 & 7
        enum: disposal
  application:
    seq:
      - id: len
        contents: [11]
      - id: name
        type: str
        size: 8
      - id: code
        type: str
        size: 3
      - id: data
        type: pieces
    instances:
      loops:
        doc: How often the pictures are shown again; 0 is for ever.
        if: name == "NETSCAPE"
        value: data.list[0].bytes[1] | data.list[0].bytes[2] << 8
  image:
    seq:
      - id: left
        type: u2
      - id: top
        type: u2
      - id: width
        type: u2
      - id: height
        type: u2
      - id: flags
        type: u1
      - id: palette
        type: palette(flags)
        if: flags >= 0x80
      - id: code_bits
        type: u1
        valid:
          min: 2
          max: 8
      - id: data
        type: pieces
    instances:
      interlaced:
        value: flags & 0x40 != 0
      control:
        doc: It stands in the block before the picture.
        value: _root.blocks[_parent.number - 1].body.as<extension>.body.as<control>
      colors:
        doc: Those of the picture, or else those of all pictures.
        value: 'flags >= 0x80 ? palette.colors : _root.palette.colors'
      transparent:
        if: control.flags & 1 != 0
        value: colors[control.transparent].rgb
      fits:
        value: left + width <= _root.width and top + height <= _root.height
  pieces:
    seq:
      - id: list
        type: piece
        repeat: until
        repeat-until: _.len == 0
    instances:
      text:
        doc: The text of a comment in one piece.
        value: list[0].bytes.to_s("ASCII")
  piece:
    seq:
      - id: len
        type: u1
      - id: bytes
        size: len
enums:
  kind:
    0x21: extension
    0x2c: image
    0x3b: trailer
  label:
    0x01: text
    0xf9: control
    0xfe: comment
    0xff: application
  disposal:
    0: any
    1: keep
    2: background
    3: previous
