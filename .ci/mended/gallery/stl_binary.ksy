meta:
  id: stl_binary
  title: STL, binary form
  file-extension: stl
  license: CC0-1.0
  endian: le
  encoding: windows-1252
doc: |
  A solid as triangles: each has a normal, three corners and two bytes, in which some programs
  keep a color.
seq:
  - id: comment
    type: str
    size: 80
    pad-right: 0
  - id: num_facets
    type: u4
  - id: facets
    type: facet
    repeat: expr
    repeat-expr: num_facets
types:
  facet:
    seq:
      - id: normal
        type: vec3d
      - id: corners
        type: vec3d
        repeat: expr
        repeat-expr: 3
      - id: color
        type: color
        size: 2
  vec3d:
    seq:
      - id: x
        type: f4
      - id: y
        type: f4
      - id: z
        type: f4
    instances:
      length_squared:
        value: x * x + y * y + z * z
  color:
    meta:
      bit-endian: le
    seq:
      - id: blue
        type: b5
      - id: green
        type: b5
      - id: red
        type: b5
      - id: is_valid
        type: b1
