meta:
  id: pcap
  title: PCAP (named after libpcap/winpcap)
  file-extension: pcap
  xref:
    justsolve: PCAP
    wikidata: Q28206820
  license: CC0-1.0
  ks-version: 0.9
  imports:
    - /network/ethernet_frame
  endian: le
doc: |
  PCAP (named after libpcap / winpcap) is a popular format for saving
  network traffic grabbed by network sniffers.
seq:
  - id: hdr
    type: header
  - id: packets
    type: packet
    repeat: eos
types:
  header:
    seq:
      - id: magic_number
        contents: [0xd4, 0xc3, 0xb2, 0xa1]
      - id: version_major
        type: u2
      - id: version_minor
        type: u2
      - id: thiszone
        type: s4
        doc: |
          Correction time in seconds between UTC and the local
          timezone of the following packet header timestamps.
      - id: sigfigs
        type: u4
      - id: snaplen
        type: u4
      - id: network
        type: u4
        enum: linktype
  packet:
    seq:
      - id: ts_sec
        type: u4
      - id: ts_usec
        type: u4
      - id: incl_len
        type: u4
      - id: orig_len
        type: u4
      - id: body
        size: incl_len
        type:
          switch-on: _root.hdr.network
          cases:
            'linktype::ethernet': ethernet_frame
enums:
  linktype:
    0: null_linktype
    1: ethernet
    9: ppp
    101: raw
