"""What the tools here need of AMQP's encoding: values (Part 1, 1.6), performatives and frames (Part 2, 2.3 and 2.7)."""
import struct

OPEN, BEGIN, ATTACH, FLOW, TRANSFER, DISPOSITION = 0x10, 0x11, 0x12, 0x13, 0x14, 0x15
NAMES = {0x10: "open", 0x11: "begin", 0x12: "attach", 0x13: "flow", 0x14: "transfer", 0x15: "disposition", 0x16: "detach",
         0x17: "end", 0x18: "close", 0x1d: "error", 0x23: "received", 0x24: "accepted", 0x25: "rejected", 0x26: "released", 0x27: "modified"}
PROTOCOL = b"AMQP\x00\x01\x00\x00"
DELIVERY_ID = 1


class Uint(int):
    pass


class Ulong(int):
    pass


class Ushort(int):
    pass


class Ubyte(int):
    pass


class Symbol(str):
    pass


class Described:
    def __init__(self, code, fields):
        self.code, self.fields = code, fields

    def field(self, n):
        """A field, or None where the list ends before it."""
        return self.fields[n] if n < len(self.fields) else None

    def __repr__(self):
        return "%s%r" % (NAMES.get(self.code, hex(self.code)), self.fields)


def encode(x):
    """A value in a form that every reader takes: lists and maps with four-byte sizes."""
    if x is None:
        return b"\x40"
    if isinstance(x, bool):
        return b"\x41" if x else b"\x42"
    if isinstance(x, Described):
        return b"\x00" + encode(Ulong(x.code)) + encode(x.fields)
    if isinstance(x, (list, dict)):
        return compound(x)
    return scalar(x)


def compound(x):
    items = [part for pair in x.items() for part in pair] if isinstance(x, dict) else x
    body = b"".join(encode(i) for i in items)
    return struct.pack(">BII", 0xd1 if isinstance(x, dict) else 0xd0, len(body) + 4, len(items)) + body


def scalar(x):
    if isinstance(x, Ulong):
        return struct.pack(">BQ", 0x80, x)
    if isinstance(x, Uint):
        return struct.pack(">BI", 0x70, x)
    if isinstance(x, Ushort):
        return struct.pack(">BH", 0x60, x)
    if isinstance(x, Ubyte):
        return struct.pack(">BB", 0x50, x)
    code, raw = (0xb0, x) if isinstance(x, bytes) else (0xb3 if isinstance(x, Symbol) else 0xb1, x.encode())
    return struct.pack(">BI", code, len(raw)) + raw


def end_of(raw, at):
    """Where the value that begins at a byte ends. A code's upper half says how wide it is (Part 1, 1.2)."""
    code = raw[at]
    if code == 0x00:
        return end_of(raw, end_of(raw, at + 1))
    width = code >> 4
    if width < 0xa:
        return at + 1 + (0, 1, 2, 4, 8, 16)[width - 4]
    sized = 1 if width % 2 == 0 else 4
    return at + 1 + sized + int.from_bytes(raw[at + 1:at + 1 + sized], "big")


def fields_at(raw, at):
    """The fields of the list at a byte, each as its own bytes."""
    code = raw[at]
    if code == 0x45:
        return []
    sized = 1 if code == 0xc0 else 4
    assert code in (0xc0, 0xd0), "no list: %#x" % code
    count = int.from_bytes(raw[at + 1 + sized:at + 1 + 2 * sized], "big")
    fields, at = [], at + 1 + 2 * sized
    for _ in range(count):
        fields.append(raw[at:end_of(raw, at)])
        at += len(fields[-1])
    return fields


def decode(raw):
    """One whole value."""
    code, rest = raw[0], raw[1:]
    if code == 0x00:
        at = end_of(raw, 1)
        return Described(decode(raw[1:at]), decode(raw[at:]))
    if code in (0x45, 0xc0, 0xd0):
        return [decode(f) for f in fields_at(raw, 0)]
    if code in (0xc1, 0xd1):
        parts = [decode(f) for f in fields_at(bytes([code - 1]) + rest, 0)]
        return dict(zip(parts[::2], parts[1::2]))
    if code in (0xe0, 0xf0):
        return rest
    if code in (0xa0, 0xb0):
        return rest[1 if code == 0xa0 else 4:]
    if code in (0xa1, 0xb1, 0xa3, 0xb3):
        return rest[1 if code < 0xb0 else 4:].decode()
    if code == 0x40:
        return None
    return code == 0x41 if code in (0x41, 0x42) else bool(rest[0]) if code == 0x56 else int.from_bytes(rest, "big")


def header_list(header):
    """Where the list of a performative begins."""
    return end_of(header, 1)


def id_like(header, id):
    """A delivery id, short where the header is a compact one."""
    if header[header_list(header)] == 0xd0:
        return encode(Uint(id))
    return b"\x43" if id == 0 else bytes([0x52, id]) if id < 256 else encode(Uint(id))


def with_delivery_id(header, id):
    """The transfer with a delivery id in its second field, and nothing else changed."""
    at = header_list(header)
    fields = fields_at(header, at)
    fields[DELIVERY_ID] = id_like(header, id)
    body = b"".join(fields)
    size, count = (">BBB", 1) if header[at] == 0xc0 else (">BII", 4)
    return header[:at] + struct.pack(size, header[at], len(body) + count, len(fields)) + body


def frame(channel, body):
    return struct.pack(">IBBH", 8 + len(body), 2, 0, channel) + body


def performative(code, fields, channel=0):
    return frame(channel, encode(Described(code, fields)))


def frames(raw):
    """The frames of a peer's bytes, after its protocol header: performative and payload of each."""
    assert raw[:8] == PROTOCOL
    at = 8
    while at < len(raw):
        size, offset = struct.unpack(">IB", raw[at:at + 5])
        body = raw[at + 4 * offset:at + size]
        end = end_of(body, 0) if body else 0
        if body:
            yield decode(body[:end]), body[end:]
        at += size
