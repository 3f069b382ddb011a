meta:
  id: p
seq:
  - id: a
    type: u1
  - id: b
    type: s2le
