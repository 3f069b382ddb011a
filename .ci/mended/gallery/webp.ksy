meta:
  id: webp
  title: WebP image
  file-extension: webp
  xref:
    mime: image/webp
  license: CC0-1.0
  ks-version: "0.10"
  encoding: ASCII
  endian: le
  bit-endian: le
doc-ref: https://developers.google.com/speed/webp/docs/riff_container
seq:
  - id: magic
    contents: RIFF
  - id: len_file
    type: u4
  - id: form
    contents: WEBP
  - id: chunks
    type: chunk
    repeat: eos
types:
  chunk:
    seq:
      - id: fourcc
        type: str
        size: 4
      - id: len_body
        type: u4
      - id: body
        size: len_body
        type:
          switch-on: fourcc
          cases:
            '"VP8X"': vp8x
            '"VP8 "': vp8
            '"VP8L"': vp8l
            '"ANIM"': anim
      - id: padding
        size: len_body % 2
  vp8x:
    seq:
      - id: reserved1
        type: b1
      - id: has_animation
        type: b1
      - id: has_xmp
        type: b1
      - id: has_exif
        type: b1
      - id: has_alpha
        type: b1
      - id: has_icc
        type: b1
      - id: reserved2
        type: b2
      - id: reserved3
        size: 3
      - id: width_minus_1
        type: b24
      - id: height_minus_1
        type: b24
    instances:
      width:
        value: width_minus_1 + 1
      height:
        value: height_minus_1 + 1
  vp8:
    seq:
      - id: frame_tag
        type: b24
      - id: start_code
        contents: [0x9d, 0x01, 0x2a]
      - id: width
        type: b14
      - id: horizontal_scale
        type: b2
      - id: height
        type: b14
      - id: vertical_scale
        type: b2
      - id: data
        size-eos: true
  vp8l:
    seq:
      - id: signature
        contents: [0x2f]
      - id: width_minus_1
        type: b14
      - id: height_minus_1
        type: b14
      - id: is_alpha_used
        type: b1
      - id: version
        type: b3
      - id: data
        size-eos: true
  anim:
    seq:
      - id: background_color
        type: u4
      - id: num_loops
        type: u2
