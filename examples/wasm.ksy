# By the W3C's "WebAssembly Core Specification", chapter 5.
meta:
  id: wasm
  title: WebAssembly module
  file-extension: wasm
  endian: le
  encoding: UTF-8
seq:
  - id: magic
    contents: [0, asm]
  - id: version
    type: u4
  - id: sections
    type: section(_index)
    repeat: eos
instances:
  imports:
    value: sections[0].imports
  code:
    value: sections[0].code
types:
  section:
    params:
      - id: number
        type: u4
    seq:
      - id: id
        type: u1
        enum: section_id
      - id: len
        type: leb
      - id: body
        size: len.value
        type:
          switch-on: id
          cases:
            section_id::custom: custom
            section_id::types: types
            section_id::imports: imports
            section_id::functions: functions
            section_id::memories: memories
            section_id::exports: exports
            section_id::code: code
    instances:
      imports:
        doc: Of this section, or else of a later one.
        value: 'id == section_id::imports ? body.as<imports> : _root.sections[number + 1].imports'
      code:
        value: 'id == section_id::code ? body.as<code> : _root.sections[number + 1].code'
  leb:
    doc: Seven bits a byte, the lowest first.
    seq:
      - id: digits
        type: digit(_index)
        repeat: until
        repeat-until: _.byte < 128
    instances:
      value:
        value: digits.last.sum
  digit:
    params:
      - id: number
        type: u4
    seq:
      - id: byte
        type: u1
    instances:
      before:
        value: 'number == 0 ? 0 : _parent.digits[number - 1].sum'
      sum:
        value: before | (byte & 127) << 7 * number
  text:
    seq:
      - id: len
        type: leb
      - id: text
        type: str
        size: len.value
  custom:
    seq:
      - id: name
        type: text
      - id: data
        size-eos: true
  types:
    seq:
      - id: num_items
        type: leb
      - id: list
        type: function_type
        repeat: expr
        repeat-expr: num_items.value
  function_type:
    seq:
      - id: form
        contents: [0x60]
      - id: num_params
        type: leb
      - id: params
        type: u1
        enum: value_type
        repeat: expr
        repeat-expr: num_params.value
      - id: num_results
        type: leb
      - id: results
        type: u1
        enum: value_type
        repeat: expr
        repeat-expr: num_results.value
  imports:
    seq:
      - id: num_items
        type: leb
      - id: list
        type: import(_index)
        repeat: expr
        repeat-expr: num_items.value
  import:
    params:
      - id: number
        type: u4
    seq:
      - id: module
        type: text
      - id: name
        type: text
      - id: kind
        type: u1
        enum: kind
      - id: body
        type:
          switch-on: kind
          cases:
            kind::function: leb
            kind::table: table
            kind::memory: limits
            kind::global: global
    instances:
      functions:
        doc: How many functions are imported up to here.
        value: before + (kind == kind::function).to_i
      before:
        value: 'number == 0 ? 0 : _parent.list[number - 1].functions'
  table:
    seq:
      - id: type
        type: u1
        enum: value_type
      - id: limits
        type: limits
  global:
    seq:
      - id: type
        type: u1
        enum: value_type
      - id: mutable
        type: u1
  limits:
    seq:
      - id: flags
        type: u1
      - id: low
        type: leb
      - id: high
        type: leb
        if: flags & 1 != 0
  functions:
    seq:
      - id: num_items
        type: leb
      - id: types
        type: leb
        repeat: expr
        repeat-expr: num_items.value
  memories:
    seq:
      - id: num_items
        type: leb
      - id: list
        type: limits
        repeat: expr
        repeat-expr: num_items.value
  exports:
    seq:
      - id: num_items
        type: leb
      - id: list
        type: export
        repeat: expr
        repeat-expr: num_items.value
  export:
    seq:
      - id: name
        type: text
      - id: kind
        type: u1
        enum: kind
      - id: index
        type: leb
    instances:
      code:
        doc: The numbers of imported functions come first; they have no code.
        if: kind == kind::function
        value: _root.code.list[index.value - _root.imports.list.last.functions].body.code
  code:
    seq:
      - id: num_items
        type: leb
      - id: list
        type: function
        repeat: expr
        repeat-expr: num_items.value
  function:
    seq:
      - id: len
        type: leb
      - id: body
        type: body
        size: len.value
  body:
    seq:
      - id: num_locals
        type: leb
      - id: locals
        type: local
        repeat: expr
        repeat-expr: num_locals.value
      - id: code
        size-eos: true
  local:
    seq:
      - id: num_items
        type: leb
      - id: type
        type: u1
        enum: value_type
enums:
  section_id:
    0: custom
    1: types
    2: imports
    3: functions
    4: tables
    5: memories
    6: globals
    7: exports
    8: start
    9: elements
    10: code
    11: data
    12: data_count
  kind:
    0: function
    1: table
    2: memory
    3: global
  value_type:
    0x7f: i32
    0x7e: i64
    0x7d: f32
    0x7c: f64
    0x70: function
