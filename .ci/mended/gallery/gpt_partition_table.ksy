meta:
  id: gpt_partition_table
  title: GPT (GUID) partition table
  xref:
    forensicswiki: GPT
    wikidata: Q475459
  tags:
    - dos
  license: CC0-1.0
  ks-version: 0.9
  endian: le
doc-ref: https://en.wikipedia.org/wiki/GUID_Partition_Table
instances:
  sector_size:
    value: 0x200
  primary:
    io: _root._io
    pos: _root.sector_size
    type: partition_header
  backup:
    io: _root._io
    pos: _io.size - _root.sector_size
    type: partition_header
types:
  partition_header:
    seq:
      - id: signature
        contents: "EFI PART"
      - id: revision
        type: u4
      - id: header_size
        type: u4
      - id: crc32_of_header
        type: u4
      - id: reserved
        type: u4
      - id: current_lba
        type: u8
      - id: backup_lba
        type: u8
      - id: first_usable_lba
        type: u8
      - id: last_usable_lba
        type: u8
      - id: disk_guid
        size: 0x10
      - id: entries_start
        type: u8
      - id: entries_count
        type: u4
      - id: entries_size
        type: u4
      - id: crc32_of_array
        type: u4
    instances:
      entries:
        io: _root._io
        pos: entries_start * _root.sector_size
        size: entries_size
        type: partition_entry
        repeat: expr
        repeat-expr: entries_count
  partition_entry:
    seq:
      - id: type_guid
        size: 0x10
      - id: guid
        size: 0x10
      - id: first_lba
        type: u8
      - id: last_lba
        type: u8
      - id: attributes
        type: attributes
        size: 8
      - id: name
        type: str
        encoding: UTF-16LE
        size: 0x48
    instances:
      num_sectors:
        value: last_lba - first_lba + 1
      is_unused:
        value: type_guid == [0, 0, 0, 0, 0, 0, 0, 0, 0, 0, 0, 0, 0, 0, 0, 0]
  attributes:
    meta:
      bit-endian: le
    seq:
      - id: is_required
        type: b1
        doc: The platform can't work without this partition.
      - id: is_ignored_by_firmware
        type: b1
      - id: is_legacy_bootable
        type: b1
      - id: reserved
        type: b45
      - id: of_type
        type: b16
        doc: 'What these bits are depends on the type of the partition'
