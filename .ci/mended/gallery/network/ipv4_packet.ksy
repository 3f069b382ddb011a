meta:
  id: ipv4_packet
  title: IPv4 network packet
  license: CC0-1.0
  ks-version: 0.9
  imports:
    - udp_datagram
  endian: be
seq:
  - id: b1
    type: u1
  - id: b2
    type: u1
  - id: total_length
    type: u2
  - id: identification
    type: u2
  - id: b67
    type: u2
  - id: ttl
    type: u1
  - id: protocol
    type: u1
  - id: header_checksum
    type: u2
  - id: src_ip_addr
    size: 4
  - id: dst_ip_addr
    size: 4
  - id: options
    size: ihl_bytes - 20
  - id: body
    size: total_length - ihl_bytes
    type:
      switch-on: protocol
      cases:
        17: udp_datagram
instances:
  version:
    value: (b1 & 0xf0) >> 4
  ihl:
    value: b1 & 0xf
  ihl_bytes:
    value: ihl * 4
