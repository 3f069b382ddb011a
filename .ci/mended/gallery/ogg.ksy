meta:
  id: ogg
  title: Ogg media container
  file-extension:
    - ogg
    - oga
    - ogv
  xref:
    mime: application/ogg
    wikidata: Q188199
  license: CC0-1.0
  ks-version: 0.9
  endian: le
  encoding: UTF-8
doc: |
  Ogg is a container of one or more streams of audio, video and text. A file is a sequence of
  pages, each of which belongs to one stream: see RFC 3533.
doc-ref: https://www.rfc-editor.org/rfc/rfc3533
seq:
  - id: pages
    type: page
    repeat: eos
types:
  page:
    doc: A page has a header of 27 bytes and up to 255 segments.
    seq:
      - id: sync_code
        contents: OggS
      - id: version
        contents: [0]
      - id: flags
        type: flags
      - id: granule_pos
        type: u8
        doc: '"Granule position" is the time marker; what it counts depends on the codec.'
      - id: bitstream_serial
        type: u4
      - id: page_seq_num
        type: u4
      - id: crc32
        type: u4
      - id: num_segments
        type: u1
      - id: len_segments
        type: u1
        repeat: expr
        repeat-expr: num_segments
      - id: segments
        size: len_segments[_index]
        repeat: expr
        repeat-expr: num_segments
    instances:
      is_packet_open:
        value: num_segments > 0 and len_segments[num_segments - 1] == 255
        doc: Whether the last packet goes on in the next page.
  flags:
    meta:
      bit-endian: le
    seq:
      - id: is_continued
        type: b1
        doc: The first packet of this page goes on from the page before.
      - id: is_beginning_of_stream
        type: b1
      - id: is_end_of_stream
        type: b1
      - id: reserved
        type: b5
