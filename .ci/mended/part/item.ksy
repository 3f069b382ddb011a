meta: {id: item}
seq: [{id: big, type: u4be}]
instances:
  twice: {value: _root.big * 2}
  again:
    value: item::kind::one.to_i
enums:
  kind: {1: one}
