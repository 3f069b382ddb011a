---
meta: {id: two, imports: [item], endian: le}
doc: |
  Words.

  More words.
seq: [{id: n, type: u2}, {id: it, type: item}]
