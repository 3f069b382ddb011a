meta:
  id: udp_datagram
  title: UDP (User Datagram Protocol) network datagram
  license: CC0-1.0
  ks-version: 0.9
  endian: be
seq:
  - id: src_port
    type: u2
  - id: dst_port
    type: u2
  - id: length
    type: u2
  - id: checksum
    type: u2
  - id: body
    size: length - 8
