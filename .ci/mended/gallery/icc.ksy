meta:
  id: icc
  title: ICC profile, version 4
  file-extension:
    - icc
    - icm
  license: CC0-1.0
  ks-version: 0.9
  encoding: ASCII
  endian: be
doc-ref: ICC.1:2010, Image technology colour management
seq:
  - id: header
    size: 128
    type: profile_header
  - id: tag_table
    type: tag_table
types:
  profile_header:
    seq:
      - id: len_profile
        type: u4
      - id: preferred_cmm_type
        type: str
        size: 4
      - id: version
        type: version_field
      - id: device_class
        type: u4
        enum: profile_classes
        valid:
          in-enum: true
      - id: color_space
        type: str
        size: 4
      - id: pcs
        type: str
        size: 4
      - id: creation_date_time
        type: date_time_number
      - id: signature
        contents: acsp
      - id: primary_platform
        type: u4
        enum: platforms
      - id: flags
        type: profile_flags
      - id: device_manufacturer
        type: str
        size: 4
      - id: device_model
        type: str
        size: 4
      - id: device_attributes
        type: u8
      - id: rendering_intent
        type: u4
        enum: intents
      - id: illuminant
        type: xyz_number
      - id: creator
        type: str
        size: 4
      - id: identifier
        size: 16
      - id: reserved
        size: 28
    enums:
      profile_classes:
        0x73636e72: input_device
        0x6d6e7472: display_device
        0x70727472: output_device
        0x6c696e6b: device_link
      platforms:
        0x4150504c: apple
        0x4d534654: microsoft
        0x53474920: silicon_graphics
        0x53554e57: sun
      intents:
        0: perceptual
        1: relative_colorimetric
        2: saturation
        3: absolute_colorimetric
  version_field:
    seq:
      - id: major
        type: u1
      - id: minor
        type: b4
      - id: bug_fix_level
        type: b4
      - id: reserved
        contents: [0x00, 0x00]
  profile_flags:
    seq:
      - id: reserved
        type: b30
      - id: is_bound
        type: b1
        doc: The profile can't be used apart from the file that it is in
      - id: is_embedded
        type: b1
  date_time_number:
    seq:
      - id: year
        type: u2
      - id: month
        type: u2
      - id: day
        type: u2
      - id: hour
        type: u2
      - id: minute
        type: u2
      - id: second
        type: u2
  xyz_number:
    seq:
      - id: x
        type: s15_fixed16_number
      - id: y
        type: s15_fixed16_number
      - id: z
        type: s15_fixed16_number
  s15_fixed16_number:
    seq:
      - id: raw
        type: s4
    instances:
      value:
        value: raw / 65536.0
  tag_table:
    seq:
      - id: num_tags
        type: u4
      - id: tags
        type: tag_definition
        repeat: expr
        repeat-expr: num_tags
  tag_definition:
    seq:
      - id: tag_signature
        type: str
        size: 4
      - id: ofs_data
        type: u4
      - id: len_data
        type: u4
    instances:
      data_element:
        pos: ofs_data
        size: len_data
        type: tag_data
        io: _root._io
  tag_data:
    seq:
      - id: type_signature
        type: str
        size: 4
      - id: reserved
        contents: [0, 0, 0, 0]
      - id: body
        size-eos: true
        type:
          switch-on: type_signature
          cases:
            '"text"': text_type
            '"mluc"': multi_localized_unicode_type
            '"XYZ "': xyz_type
            '"curv"': curve_type
  text_type:
    seq:
      - id: value
        type: strz
        size-eos: true
        encoding: ASCII
  xyz_type:
    seq:
      - id: values
        type: xyz_number
        repeat: eos
  curve_type:
    seq:
      - id: num_entries
        type: u4
      - id: values
        type: u2
        repeat: expr
        repeat-expr: num_entries
        if: num_entries > 1
      - id: gamma
        type: u2
        if: num_entries == 1
  multi_localized_unicode_type:
    seq:
      - id: num_records
        type: u4
      - id: len_record
        type: u4
      - id: records
        type: record
        size: len_record
        repeat: expr
        repeat-expr: num_records
    types:
      record:
        seq:
          - id: language_code
            type: str
            size: 2
          - id: country_code
            type: str
            size: 2
          - id: len_text
            type: u4
          - id: ofs_text
            type: u4
        instances:
          text:
            io: _parent._io
            pos: ofs_text - 8
            size: len_text
            type: str
            encoding: UTF-16BE
