"""The wide form of each header, by the tables of the standard (Part 1, 1.6): `NAME TAB HEX` for each. No encoder at hand writes it."""
import struct

from cases import ABSENT, HEADERS, Described, Symbol, Uint, Ulong


def value(x):
    if x is ABSENT:
        return b"\x40"
    if isinstance(x, Described):
        fields = b"".join(value(f) for f in x.fields)
        return b"\x00" + value(Ulong(x.code)) + b"\xd0" + struct.pack(">II", len(fields) + 4, len(x.fields)) + fields
    if isinstance(x, Symbol):
        return b"\xb3" + struct.pack(">I", len(x)) + x.encode()
    if isinstance(x, Uint):
        return b"\x70" + struct.pack(">I", x)
    if isinstance(x, Ulong):
        return b"\x80" + struct.pack(">Q", x)
    if isinstance(x, bool):
        return b"\x56" + bytes([x])
    return b"\xb0" + struct.pack(">I", len(x)) + x


for name, h in HEADERS:
    print("%s\t%s" % (name, value(h).hex()))
