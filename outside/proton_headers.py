"""What Qpid Proton puts on the wire, and what its codec makes of headers: `NAME TAB HEX` for each.

Two transports are driven in memory. Given a file of `NAME TAB HEX` lines, it decodes each and checks it against its values instead."""
import struct
import sys

from proton import Collector, Condition, Connection, Data, Delivery, Described as PDescribed, Endpoint, Transport, symbol, uint, ulong

from cases import ABSENT, HEADERS, Described, Symbol, Uint, Ulong


def plain(x):
    """A value as Proton's codec takes and gives it."""
    if isinstance(x, Described):
        return PDescribed(ulong(x.code), [plain(f) for f in x.fields])
    if isinstance(x, Symbol):
        return symbol(x)
    if isinstance(x, Uint):
        return uint(x)
    if isinstance(x, Ulong):
        return ulong(x)
    return x


def decoded(raw):
    d = Data()
    assert d.decode(raw) == len(raw)
    d.rewind()
    d.next()
    return d.get_object()


def encoded(x):
    d = Data()
    d.put_object(plain(x))
    return d.encode()


class End:
    def __init__(self, name, mode, max_frame=None):
        self.connection = Connection()
        self.connection.container = self.connection.hostname = name
        self.transport = Transport(mode)
        if max_frame:
            self.transport.max_frame_size = max_frame
        self.transport.bind(self.connection)
        self.log = b""

    def headers(self, code):
        log = self.log[8:]
        while log:
            size, offset = struct.unpack(">IB", log[:5])
            frame, log = log[4 * offset:size], log[size:]
            if frame[:3] == bytes([0x00, 0x53, code]):
                yield frame


def pump(a, b):
    moved = True
    while moved:
        moved = False
        for x, y in ((a, b), (b, a)):
            if x.transport.pending() > 0:
                part = bytes(x.transport.peek(x.transport.pending()))
                x.transport.pop(len(part))
                x.log += part
                y.transport.push(part)
                moved = True


def link(max_frame=None):
    a, b = End("a", Transport.CLIENT), End("b", Transport.SERVER, max_frame)
    a.connection.open()
    b.connection.open()
    session = a.connection.session()
    session.open()
    pump(a, b)
    b.connection.session_head(Endpoint.REMOTE_ACTIVE).open()
    sender = session.sender("l")
    sender.open()
    pump(a, b)
    receiver = b.connection.link_head(Endpoint.REMOTE_ACTIVE)
    receiver.open()
    receiver.flow(100)
    pump(a, b)
    return a, b, sender, receiver


def cut(frame):
    """A transfer without the payload after it."""
    return frame[:frame[4] + 5]


def show(name, frame):
    print("%s\t%s" % (name, frame.hex()))


def drive():
    a, b, sender, _ = link(512)
    sender.delivery("\0\0\0\1")
    sender.send(b"\xcc" * 600)
    sender.advance()
    pump(a, b)
    for name, frame in zip(("on the wire: first frame, more to come", "on the wire: last frame"), a.headers(0x14)):
        show(name, cut(frame))
    a, b, sender, _ = link()
    sender.delivery("\0\0\0\1").update(Delivery.ACCEPTED)
    sender.send(b"\xaa")
    sender.advance()
    pump(a, b)
    show("on the wire: a state with null for its list", cut(next(a.headers(0x14))))
    a, b, sender, _ = link()
    for i in range(6):
        delivery = sender.delivery("\0\0\0" + chr(i))
        sender.send(b"\xaa")
        sender.advance()
        pump(a, b)
    delivery.update(Delivery.ACCEPTED)
    delivery.settle()
    pump(a, b)
    show("on the wire: disposition, accepted and settled", next(a.headers(0x15)))
    a, b, sender, receiver = link()
    sender.delivery("\0\0\0\1")
    sender.send(b"\xaa")
    sender.advance()
    pump(a, b)
    receiver.current.local.condition = Condition("amqp:not-found")
    receiver.current.update(Delivery.REJECTED)
    pump(a, b)
    show("on the wire: a receiver's disposition", next(b.headers(0x15)))
    for name, h in HEADERS[:1] + HEADERS[12:13]:
        show("by its codec: " + name, encoded(h))


if len(sys.argv) > 1:
    values = dict(HEADERS)
    for line in open(sys.argv[1]):
        name, raw = line.rstrip("\n").split("\t")
        assert decoded(bytes.fromhex(raw)) == plain(values[name]), name
else:
    drive()
