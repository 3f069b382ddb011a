meta: {id: t}
seq: [{id: hi, type: b4}, {id: lo, type: b4}, {id: z, type: u1}]
