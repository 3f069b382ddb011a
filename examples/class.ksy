# By the Java Virtual Machine Specification, chapter 4.
meta:
  id: class
  title: Java class file
  file-extension: class
  endian: be
  encoding: UTF-8
seq:
  - id: magic
    contents: [0xca, 0xfe, 0xba, 0xbe]
  - id: minor
    type: u2
  - id: major
    type: u2
  - id: constant_pool_count
    type: u2
  - id: constants
    doc: Constant k of the specification is element k - 1.
    type: constant(_index)
    repeat: expr
    repeat-expr: constant_pool_count - 1
  - id: access
    type: class_access
  - id: this_class
    type: u2
  - id: super_class
    type: u2
  - id: interfaces_count
    type: u2
  - id: interfaces
    type: u2
    repeat: expr
    repeat-expr: interfaces_count
  - id: fields_count
    type: u2
  - id: fields
    type: member
    repeat: expr
    repeat-expr: fields_count
  - id: methods_count
    type: u2
  - id: methods
    type: member
    repeat: expr
    repeat-expr: methods_count
  - id: attributes_count
    type: u2
  - id: attributes
    type: attribute
    repeat: expr
    repeat-expr: attributes_count
instances:
  java:
    doc: The first release of Java that runs it.
    value: major - 44
  name:
    value: constants[this_class - 1].text
  super_name:
    value: constants[super_class - 1].text
types:
  constant:
    params:
      - id: number
        type: u4
    seq:
      - id: tag
        type: u1
        enum: tag
        if: not is_second
      - id: body
        if: not is_second
        type:
          switch-on: tag
          cases:
            tag::utf8: utf8
            tag::integer: s4
            tag::long: s8
            tag::double: u8
            tag::float: u4
            tag::class: name
            tag::string: name
            tag::method_type: name
            tag::module: name
            tag::package: name
            tag::field: reference
            tag::method: reference
            tag::interface_method: reference
            tag::name_and_type: reference
            tag::dynamic: reference
            tag::invoke_dynamic: reference
            tag::method_handle: handle
    instances:
      is_long:
        value: not is_second and (tag == tag::long or tag == tag::double)
      is_second:
        doc: A constant of 8 bytes takes two numbers; the second has no bytes.
        value: 'number == 0 ? false : _root.constants[number - 1].is_long'
      text:
        doc: Of a text, or of what names one.
        value: 'tag == tag::utf8 ? body.as<utf8>.text : body.as<name>.text'
  utf8:
    seq:
      - id: len
        type: u2
      - id: text
        type: str
        size: len
  name:
    seq:
      - id: at
        type: u2
    instances:
      text:
        value: _root.constants[at - 1].text
  reference:
    seq:
      - id: first
        type: u2
      - id: second
        type: u2
  handle:
    seq:
      - id: kind
        type: u1
      - id: at
        type: u2
  class_access:
    doc: The last bit is flag 1, the first is flag 0x8000.
    seq:
      - id: module
        type: b1
      - id: enum
        type: b1
      - id: annotation
        type: b1
      - id: synthetic
        type: b1
      - id: unused_0x0800
        type: b1
      - id: abstract
        type: b1
      - id: interface
        type: b1
      - id: unused_0x01c0
        type: b3
      - id: super
        type: b1
      - id: final
        type: b1
      - id: unused_0x000e
        type: b3
      - id: public
        type: b1
  member_access:
    doc: Of a field or a method, which call two flags differently.
    seq:
      - id: unused_0x8000
        type: b1
      - id: enum
        type: b1
      - id: unused_0x2000
        type: b1
      - id: synthetic
        type: b1
      - id: strict
        type: b1
      - id: abstract
        type: b1
      - id: unused_0x0200
        type: b1
      - id: native
        type: b1
      - id: transient_or_varargs
        type: b1
      - id: volatile_or_bridge
        type: b1
      - id: synchronized
        type: b1
      - id: final
        type: b1
      - id: static
        type: b1
      - id: visibility
        type: b3
        enum: visibility
  member:
    seq:
      - id: access
        type: member_access
      - id: at_name
        type: u2
      - id: at_type
        type: u2
      - id: attributes_count
        type: u2
      - id: attributes
        type: attribute
        repeat: expr
        repeat-expr: attributes_count
    instances:
      name:
        value: _root.constants[at_name - 1].text
      type:
        value: _root.constants[at_type - 1].text
      is_static:
        value: access.static
  attribute:
    seq:
      - id: at_name
        type: u2
      - id: len
        type: u4
      - id: body
        size: len
        type:
          switch-on: name
          cases:
            '"Code"': code
            '"ConstantValue"': constant_value
            '"SourceFile"': name
    instances:
      name:
        value: _root.constants[at_name - 1].text
  constant_value:
    seq:
      - id: at
        type: u2
    instances:
      constant:
        value: _root.constants[at - 1].body
  code:
    seq:
      - id: max_stack
        type: u2
      - id: max_locals
        type: u2
      - id: len
        type: u4
      - id: code
        size: len
      - id: exceptions_count
        type: u2
      - id: exceptions
        size: 8 * exceptions_count
      - id: attributes_count
        type: u2
      - id: attributes
        type: attribute
        repeat: expr
        repeat-expr: attributes_count
enums:
  visibility:
    0: package
    1: public
    2: private
    4: protected
  tag:
    1: utf8
    3: integer
    4: float
    5: long
    6: double
    7: class
    8: string
    9: field
    10: method
    11: interface_method
    12: name_and_type
    15: method_handle
    16: method_type
    17: dynamic
    18: invoke_dynamic
    19: module
    20: package
