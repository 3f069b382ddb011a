# The parsers of the examples of docs/PERFORMANCE.md, the items, the table and the lists, for Kaitai Struct's runtime, written by hand in the form of what its
# compiler makes.
from kaitaistruct import KaitaiStruct


class A(KaitaiStruct):
    def __init__(self, _io, _parent=None, _root=None):
        self._io = _io
        self._parent = _parent
        self._root = _root if _root else self
        self._read()

    def _read(self):
        self.items = []
        i = 0
        while not self._io.is_eof():
            self.items.append(A.Item(self._io, self, self._root))
            i += 1

    class Item(KaitaiStruct):
        def __init__(self, _io, _parent=None, _root=None):
            self._io = _io
            self._parent = _parent
            self._root = _root if _root else self
            self._read()

        def _read(self):
            self.len = self._io.read_u1()
            self.body = self._io.read_bytes(self.len)


class Table(KaitaiStruct):
    def __init__(self, _io, _parent=None, _root=None):
        self._io = _io
        self._parent = _parent
        self._root = _root if _root else self
        self._read()

    def _read(self):
        self.rows = []
        i = 0
        while not self._io.is_eof():
            self.rows.append(Table.Row(self._io, self, self._root))
            i += 1

    class Row(KaitaiStruct):
        def __init__(self, _io, _parent=None, _root=None):
            self._io = _io
            self._parent = _parent
            self._root = _root if _root else self
            self._read()

        def _read(self):
            self.a = self._io.read_u4be()
            self.b = self._io.read_u2be()
            self.c = self._io.read_u1()


class Bytes(KaitaiStruct):
    def __init__(self, _io, _parent=None, _root=None):
        self._io = _io
        self._parent = _parent
        self._root = _root if _root else self
        self._read()

    def _read(self):
        self.k = self._io.read_u1()
        self.pad = self._io.read_bytes(self.k)
        self.xs = []
        i = 0
        while not self._io.is_eof():
            self.xs.append(self._io.read_u1())
            i += 1


class Words(KaitaiStruct):
    def __init__(self, _io, _parent=None, _root=None):
        self._io = _io
        self._parent = _parent
        self._root = _root if _root else self
        self._read()

    def _read(self):
        self.k = self._io.read_u1()
        self.pad = self._io.read_bytes(self.k)
        self.xs = []
        i = 0
        while not self._io.is_eof():
            self.xs.append(self._io.read_u4be())
            i += 1


class Objects(KaitaiStruct):
    def __init__(self, _io, _parent=None, _root=None):
        self._io = _io
        self._parent = _parent
        self._root = _root if _root else self
        self._read()

    def _read(self):
        self.k = self._io.read_u1()
        self.pad = self._io.read_bytes(self.k)
        self.xs = []
        i = 0
        while not self._io.is_eof():
            self.xs.append(Objects.T(self._io, self, self._root))
            i += 1

    class T(KaitaiStruct):
        def __init__(self, _io, _parent=None, _root=None):
            self._io = _io
            self._parent = _parent
            self._root = _root if _root else self
            self._read()

        def _read(self):
            self.a = self._io.read_u1()
            self.b = self._io.read_u2be()
