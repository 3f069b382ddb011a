meta:
  id: k
seq:
  - id: magic
    contents: [0x4b, 0x53]
  - id: n
    type: u1
  - id: items
    type: item
    repeat: expr
    repeat-expr: n
types:
  item:
    seq:
      - id: len
        type: u1
      - id: body
        size: len
instances:
  first:
    value: items[0].len
  last:
    pos: _io.size - 1
    type: u1
