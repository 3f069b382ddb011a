# By the System V ABI, chapters 4 and 5 ("Object Files", "Program Loading").
meta:
  id: elf
  title: ELF, 64 bits, little endian
  file-extension: [elf, o, so]
  endian: le
  encoding: ASCII
seq:
  - id: magic
    contents: [0x7f, ELF]
  - id: class
    type: u1
    enum: class
    valid: class::bits64
  - id: data
    type: u1
    enum: data
    valid: data::little
  - id: ident_version
    type: u1
    valid: 1
  - id: abi
    type: u1
  - id: ident_rest
    size: 8
  - id: e_type
    type: u2
    enum: file_type
  - id: e_machine
    type: u2
    enum: machine
  - id: e_version
    type: u4
    valid: ident_version
  - id: e_entry
    type: u8
  - id: e_phoff
    type: u8
  - id: e_shoff
    type: u8
  - id: e_flags
    type: u4
  - id: e_ehsize
    type: u2
    valid: 64
  - id: e_phentsize
    type: u2
    valid: 56
  - id: e_phnum
    type: u2
  - id: e_shentsize
    type: u2
    valid: 64
  - id: e_shnum
    type: u2
  - id: e_shstrndx
    type: u2
    valid:
      max: e_shnum - 1
instances:
  segments:
    pos: e_phoff
    size: e_phentsize
    type: segment
    repeat: expr
    repeat-expr: e_phnum
  sections:
    pos: e_shoff
    size: e_shentsize
    type: section
    repeat: expr
    repeat-expr: e_shnum
types:
  segment:
    seq:
      - id: type
        type: u4
        enum: segment_type
      - id: flags
        type: segment_flags
      - id: offset
        type: u8
      - id: address
        type: u8
      - id: physical
        type: u8
      - id: len_file
        type: u8
      - id: len_memory
        type: u8
        valid:
          min: len_file
      - id: align
        type: u8
        valid:
          expr: _ & (_ - 1) == 0
    instances:
      executable:
        value: flags.execute == permission::granted
      has_entry:
        doc: Whether the program begins in this segment.
        value: address <= _root.e_entry and _root.e_entry < address + len_memory
  segment_flags:
    doc: Flags 0 to 2 are the last three bits of the first byte.
    seq:
      - id: unused
        type: b5
      - id: read
        type: b1
        enum: permission
      - id: write
        type: b1
        enum: permission
      - id: execute
        type: b1
        enum: permission
      - id: more
        size: 3
  section:
    seq:
      - id: name_at
        type: u4
      - id: type
        type: u4
        enum: section_type
      - id: flags
        type: section_flags
      - id: address
        type: u8
      - id: offset
        type: u8
      - id: len_body
        type: u8
      - id: link
        type: u4
      - id: info
        type: u4
      - id: align
        type: u8
      - id: len_entry
        type: u8
    instances:
      name:
        doc: The names of sections stand in a section of their own.
        io: _root.sections[_root.e_shstrndx].body._io
        pos: name_at
        type: strz
      body:
        io: _root._io
        pos: offset
        size: len_body
        if: type != section_type::nobits
        type:
          switch-on: type
          cases:
            section_type::symbols: symbols(link)
            section_type::strings: strings
  section_flags:
    doc: Flags 0 to 7 are the first byte, the last bit first.
    seq:
      - id: link_order
        type: b1
      - id: info_link
        type: b1
      - id: strings
        type: b1
      - id: merge
        type: b1
      - id: unused
        type: b1
      - id: execute
        type: b1
      - id: alloc
        type: b1
      - id: write
        type: b1
      - id: more
        size: 7
  strings:
    seq:
      - id: texts
        type: strz
        repeat: eos
  symbols:
    params:
      - id: names
        type: u4
        doc: The number of the section of the names.
    seq:
      - id: symbols
        type: symbol
        repeat: eos
  symbol:
    seq:
      - id: name_at
        type: u4
      - id: bind
        type: b4
        enum: bind
      - id: kind
        type: b4
        enum: symbol_kind
      - id: other
        type: b6
      - id: visibility
        type: b2
        enum: visibility
      - id: section_number
        type: u2
      - id: address
        type: u8
      - id: len
        type: u8
    instances:
      name:
        io: _root.sections[_parent.names].body._io
        pos: name_at
        type: strz
      section_name:
        if: section_number != 0 and section_number < 0xff00
        value: _root.sections[section_number].name
enums:
  class:
    1: bits32
    2: bits64
  data:
    1: little
    2: big
  file_type:
    1: relocatable
    2: executable
    3: shared
    4: core
  machine:
    3: i386
    40: arm
    62: x86_64
    183: aarch64
    243: riscv
  segment_type:
    0: unused
    1: load
    2: dynamic
    3: interpreter
    4: note
    6: headers
    0x6474e551: gnu_stack
  section_type:
    0: unused
    1: program
    2: symbols
    3: strings
    4: relocations
    7: note
    8: nobits
  permission:
    0: refused
    1: granted
  bind:
    0: local
    1: global
    2: weak
  symbol_kind:
    0: none
    1: object
    2: function
    3: section
    4: file
  visibility:
    0: default
    1: internal
    2: hidden
    3: protected
