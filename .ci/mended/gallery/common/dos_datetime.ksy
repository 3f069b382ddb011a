meta:
  id: dos_datetime
  title: MS-DOS datetime
  license: CC0-1.0
  ks-version: 0.9
  bit-endian: le
doc: |
  MS-DOS date and time are packed 16-bit values that specify local date/time. The time is always
  stored in the current UTC time offset set on the computer.
seq:
  - id: time
    type: time
  - id: date
    type: date
types:
  time:
    seq:
      - id: second_div_2
        type: b5
        valid:
          max: 29
      - id: minute
        type: b6
        valid:
          max: 59
      - id: hour
        type: b5
        valid:
          max: 23
    instances:
      second:
        value: 2 * second_div_2
  date:
    seq:
      - id: day
        type: b5
        valid:
          min: 1
      - id: month
        type: b4
        valid:
          min: 1
          max: 12
      - id: year_minus_1980
        type: b7
    instances:
      year:
        value: 1980 + year_minus_1980
        doc: only years from 1980 to 2107 (1980 + 127) can be stored
