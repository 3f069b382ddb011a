# By "Multimedia Programming Interface and Data Specifications 1.0", chapters 2 and 3.
meta:
  id: wav
  file-extension: wav
  endian: le
  encoding: ASCII
seq:
  - id: magic
    contents: RIFF
  - id: len
    type: u4
  - id: riff
    type: riff
    size: len
types:
  riff:
    seq:
      - id: form
        contents: WAVE
      - id: chunks
        type: chunk(_index)
        repeat: eos
    instances:
      format:
        value: chunks[0].format
      sound:
        value: chunks[0].sound
      milliseconds:
        value: sound.frames.size * 1000 / format.rate
  chunk:
    params:
      - id: number
        type: u4
    seq:
      - id: name
        type: str
        size: 4
      - id: len
        type: u4
      - id: body
        size: len
        type:
          switch-on: name
          cases:
            '"fmt "': format
            '"data"': sound
            '"LIST"': list
      - id: pad
        size: len % 2
    instances:
      format:
        doc: That of this chunk, or else of a later one.
        value: 'name == "fmt " ? body.as<format> : _parent.chunks[number + 1].format'
      sound:
        value: 'name == "data" ? body.as<sound> : _parent.chunks[number + 1].sound'
  format:
    seq:
      - id: tag
        type: u2
        enum: tag
        valid:
          any-of: [tag::pcm, tag::float, tag::a_law, tag::mu_law]
      - id: channels
        type: u2
        valid:
          min: 1
      - id: rate
        type: u4
        valid:
          min: 1
      - id: bytes_per_second
        type: u4
        valid: rate * len_frame
      - id: len_frame
        type: u2
        valid: channels * bits / 8
      - id: bits
        type: u2
        valid:
          any-of: [8, 16, 32]
  sound:
    seq:
      - id: frames
        size: _root.riff.format.len_frame
        type: frame(_root.riff.format.bits)
        repeat: eos
  frame:
    params:
      - id: bits
        type: u4
    seq:
      - id: samples
        doc: Samples of 8 bits have no sign, longer ones do.
        type:
          switch-on: bits
          cases:
            8: u1
            16: s2
            32: s4
        repeat: eos
  list:
    seq:
      - id: kind
        type: str
        size: 4
        valid:
          any-of: ['"INFO"', '"adtl"']
      - id: items
        type: item
        repeat: eos
  item:
    seq:
      - id: name
        type: str
        size: 4
      - id: len
        type: u4
      - id: text
        type: str
        size: len
        terminator: 0
      - id: pad
        size: len % 2
enums:
  tag:
    1: pcm
    3: float
    6: a_law
    7: mu_law
