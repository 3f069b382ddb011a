# By "BSON: Binary JSON", version 1.1 (bsonspec.org).
meta:
  id: bson
  title: BSON document
  file-extension: bson
  endian: le
  encoding: UTF-8
seq:
  - id: document
    type: document
types:
  document:
    seq:
      - id: len_document
        doc: The bytes of all of it, these four and the zero at its end with them.
        type: s4
        valid:
          min: 5
          max: _io.size
      - id: elements
        type: elements
        size: len_document - 5
      - id: end
        contents: [0]
  elements:
    seq:
      - id: list
        type: element
        repeat: eos
  element:
    seq:
      - id: kind
        type: u1
        enum: kind
        valid:
          expr: _.to_i >= 1 and _.to_i <= 18
      - id: name
        type: strz
      - id: value
        type:
          switch-on: kind
          cases:
            kind::double: double
            kind::text: text
            kind::document: document
            kind::list: document
            kind::binary: binary
            kind::object_id: object_id
            kind::truth: truth
            kind::date: date
            kind::int32: s4
            kind::timestamp: u8
            kind::int64: s8
  double:
    doc: 'A float is read as its bits: sign, exponent and fraction.'
    seq:
      - id: bits
        type: u8
    instances:
      is_negative:
        value: bits >> 63 != 0
      exponent:
        value: (bits >> 52 & 0x7ff) - 1023
      fraction:
        value: bits & 0xfffffffffffff | 0x10000000000000
      whole:
        doc: The number without what comes behind the point.
        value: fraction >> 52 - exponent
        if: exponent >= 0 and exponent <= 52
      thousandths:
        doc: What comes behind the point.
        value: (fraction << exponent & 0xfffffffffffff) * 1000 >> 52
        if: exponent >= 0 and exponent <= 10
  text:
    seq:
      - id: len_text
        doc: The zero behind it counts.
        type: s4
        valid:
          min: 1
      - id: text
        type: str
        size: len_text - 1
      - id: end
        contents: [0]
  binary:
    seq:
      - id: len_binary
        type: s4
      - id: kind
        type: u1
      - id: bytes
        size: len_binary
  object_id:
    seq:
      - id: seconds
        type: u4be
      - id: rest
        size: 8
  truth:
    seq:
      - id: byte
        type: u1
        valid:
          max: 1
    instances:
      is_true:
        value: byte == 1
  date:
    seq:
      - id: milliseconds
        type: s8
    instances:
      year:
        doc: Of 365.2425 days.
        value: 1970 + milliseconds / 31556952000
enums:
  kind:
    1: double
    2: text
    3: document
    4: list
    5: binary
    7: object_id
    8: truth
    9: date
    10: nothing
    16: int32
    17: timestamp
    18: int64
