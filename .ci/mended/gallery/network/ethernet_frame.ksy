meta:
  id: ethernet_frame
  title: Ethernet frame (layer 2, IEEE 802.3)
  xref:
    ieee: 802.3
  license: CC0-1.0
  ks-version: 0.9
  imports:
    - /network/ipv4_packet
seq:
  - id: dst_mac
    size: 6
    doc: Destination MAC address
  - id: src_mac
    size: 6
  - id: ether_type
    type: u2be
    enum: ether_type_enum
  - id: body
    size-eos: true
    type:
      switch-on: ether_type
      cases:
        'ether_type_enum::ipv4': ipv4_packet
    -webide-parse-mode: eager
enums:
  ether_type_enum:
    0x0800: ipv4
    0x0806: arp
    0x86dd: ipv6
