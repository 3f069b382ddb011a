meta:
  id: one
  imports:
    - item
    - two
  endian: be
seq:
  - id: n
    type: u2
  - id: inner
    type: item
