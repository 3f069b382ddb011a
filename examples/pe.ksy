# By Microsoft's "PE Format".
meta:
  id: pe
  title: Windows program or library
  file-extension: [exe, dll]
  endian: le
  encoding: ASCII
seq:
  - id: magic
    contents: MZ
  - id: dos
    size: 58
  - id: ofs_header
    type: u4
instances:
  header:
    pos: ofs_header
    type: header
types:
  header:
    seq:
      - id: magic
        contents: [PE, 0, 0]
      - id: machine
        type: u2
        enum: machine
      - id: num_sections
        type: u2
      - id: time
        type: u4
      - id: ofs_symbols
        type: u4
      - id: num_symbols
        type: u4
      - id: len_optional
        type: u2
      - id: flags
        type: u2
      - id: optional
        type: optional
        size: len_optional
      - id: sections
        type: section
        repeat: expr
        repeat-expr: num_sections
    instances:
      is_library:
        value: flags & 0x2000 != 0
  optional:
    seq:
      - id: kind
        type: u2
        enum: kind
      - id: linker_major
        type: u1
      - id: linker_minor
        type: u1
      - id: len_code
        type: u4
      - id: len_data
        type: u4
      - id: len_zeros
        type: u4
      - id: entry
        type: u4
      - id: ofs_code
        type: u4
      - id: ofs_data
        type: u4
        if: kind == kind::bits32
      - id: base
        type:
          switch-on: kind
          cases:
            kind::bits32: u4
            kind::bits64: u8
      - id: align_memory
        type: u4
      - id: align_file
        type: u4
      - id: versions
        size: 16
      - id: len_image
        type: u4
      - id: len_headers
        type: u4
      - id: checksum
        type: u4
      - id: subsystem
        type: u2
        enum: subsystem
      - id: flags
        type: u2
      - id: stack_and_heap
        size: 'kind == kind::bits64 ? 32 : 16'
      - id: loader
        type: u4
      - id: num_tables
        type: u4
      - id: tables
        type: table
        repeat: expr
        repeat-expr: num_tables
  table:
    seq:
      - id: address
        type: u4
      - id: len
        type: u4
  section:
    seq:
      - id: name
        type: str
        size: 8
        terminator: 0
      - id: len_memory
        type: u4
      - id: address
        type: u4
      - id: len_body
        type: u4
      - id: ofs_body
        type: u4
      - id: relocations
        size: 12
      - id: flags
        type: u4
    instances:
      body:
        pos: ofs_body
        size: len_body
      executable:
        value: flags & 0x20000000 != 0
      has_exports:
        value: _parent.optional.tables[0].address >= address and _parent.optional.tables[0].address < address + len_memory
      exports:
        doc: Addresses in memory less `shift` are places in the file.
        pos: _parent.optional.tables[0].address - shift
        type: exports(shift)
        if: has_exports
      shift:
        value: address - ofs_body
  exports:
    params:
      - id: shift
        type: u4
    seq:
      - id: flags
        type: u4
      - id: time
        type: u4
      - id: version
        size: 4
      - id: name_address
        type: u4
      - id: first_ordinal
        type: u4
      - id: num_functions
        type: u4
      - id: num_names
        type: u4
      - id: functions_address
        type: u4
      - id: names_address
        type: u4
      - id: ordinals_address
        type: u4
    instances:
      name:
        pos: name_address - shift
        type: strz
      functions:
        pos: functions_address - shift
        type: u4
        repeat: expr
        repeat-expr: num_functions
      names:
        pos: names_address - shift
        type: export(_index)
        repeat: expr
        repeat-expr: num_names
      ordinals:
        pos: ordinals_address - shift
        type: u2
        repeat: expr
        repeat-expr: num_names
  export:
    params:
      - id: number
        type: u4
    seq:
      - id: name_address
        type: u4
    instances:
      name:
        pos: name_address - _parent.shift
        type: strz
      address:
        value: _parent.functions[_parent.ordinals[number]]
enums:
  machine:
    0x14c: i386
    0x8664: x86_64
    0xaa64: aarch64
  kind:
    0x10b: bits32
    0x20b: bits64
  subsystem:
    1: native
    2: windows
    3: console
    10: efi
