# By RFC 791 (IPv4), RFC 2474 and RFC 3168 (its second byte), RFC 9293 (TCP), and pcap-savefile(5).
meta:
  id: tcp
  title: Packets of a TCP connection over IPv4, as libpcap saves them
  file-extension: pcap
  endian: be
seq:
  - id: magic
    contents: [0xd4, 0xc3, 0xb2, 0xa1]
    doc: The numbers of the file's own headers are little endian.
  - id: major
    type: u2le
  - id: minor
    type: u2le
  - id: zone
    type: s4le
  - id: accuracy
    type: u4le
  - id: len_most
    type: u4le
  - id: link
    type: u4le
    enum: link
    valid: link::raw
  - id: packets
    type: packet
    repeat: eos
types:
  packet:
    seq:
      - id: seconds
        type: u4le
      - id: microseconds
        type: u4le
      - id: len
        type: u4le
      - id: len_sent
        type: u4le
        valid:
          min: len
      - id: ip
        type: ipv4
        size: len
  ipv4:
    seq:
      - id: version
        type: b4
        valid: 4
      - id: header_words
        type: b4
        valid:
          min: 5
      - id: service
        type: b6
      - id: congestion
        type: b2
        enum: congestion
      - id: len
        type: u2
        valid:
          expr: _ == _io.size
      - id: number
        type: u2
      - id: reserved
        type: b1
        valid: false
      - id: dont_fragment
        type: b1
      - id: more_fragments
        type: b1
      - id: ofs_fragment
        type: b13
        doc: In units of eight bytes.
      - id: hops
        type: u1
      - id: protocol
        type: u1
        enum: protocol
      - id: checksum
        type: u2
      - id: source
        type: u1
        repeat: expr
        repeat-expr: 4
      - id: target
        type: u1
        repeat: expr
        repeat-expr: 4
      - id: options
        size: 4 * header_words - 20
      - id: body
        size: len - 4 * header_words
        type:
          switch-on: protocol
          cases:
            protocol::tcp: segment
    instances:
      is_fragment:
        value: more_fragments or ofs_fragment != 0
  segment:
    seq:
      - id: source
        type: u2
      - id: target
        type: u2
      - id: sequence
        type: u4
      - id: acknowledged
        type: u4
      - id: header_words
        type: b4
        valid:
          min: 5
      - id: reserved
        type: b4
      - id: cwr
        type: b1
        enum: flag
      - id: ece
        type: b1
        enum: flag
      - id: urg
        type: b1
        enum: flag
      - id: ack
        type: b1
        enum: flag
      - id: psh
        type: b1
        enum: flag
      - id: rst
        type: b1
        enum: flag
      - id: syn
        type: b1
        enum: flag
      - id: fin
        type: b1
        enum: flag
      - id: window
        type: u2
      - id: checksum
        type: u2
      - id: urgent_to
        type: u2
      - id: options
        size: 4 * header_words - 20
      - id: data
        size-eos: true
    instances:
      opens:
        doc: The first segment of a connection.
        value: syn == flag::set and ack == flag::clear
enums:
  link:
    1: ethernet
    101: raw
  protocol:
    1: icmp
    6: tcp
    17: udp
  congestion:
    0: not_capable
    1: capable_1
    2: capable_0
    3: experienced
  flag:
    0: clear
    1: set
