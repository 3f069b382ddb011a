meta: {id: t}
seq: [{id: x, type: b12}, {id: y, type: b4}]
