"""How fast Qpid Proton's own sender turns whole messages into a connection's bytes, in memory, with no socket.

A row for each size of message and of frame: messages and bytes of messages for a second of the processor, of sending alone and with the
answers that end every delivery. Rows `python` go through Proton's Python, rows `c` through proton_speed.c, where a C compiler and
Proton's headers are there. Each is the fastest of three runs; columns are joined by tabs. The bytes are counted, and go nowhere."""
import subprocess
import sys
import tempfile
import time
from pathlib import Path

from proton import Connection, Transport

from wire import ATTACH, BEGIN, DISPOSITION, FLOW, OPEN, PROTOCOL, Described, Ubyte, Uint, Ushort, performative

ACCEPTED = Described(0x24, [])
WINDOW = 2**31 - 1
# Size of the message, how many are sent, and after how many they are answered.
RUNS = ((100, 100_000, 1000), (10_000, 20_000, 1000), (1_000_000, 400, 10), (64_000_000, 8, 1))
# The longest frame, its four length bytes with it.
FRAMES = (516, 4100, 65_539)
TIMES = 3
HEAD = "by frame bytes messages seconds messages/s bytes/s answered_seconds answered_messages/s answered_bytes/s wire_bytes".split()


def peer_opening(max_frame):
    """What a receiver writes to open: room for all frames, and credit for all messages."""
    source, target = Described(0x28, ["shelf"]), Described(0x29, ["shelf"])
    yield PROTOCOL
    yield performative(OPEN, ["archive", None, Uint(max_frame)])
    yield performative(BEGIN, [Ushort(0), Uint(0), Uint(WINDOW), Uint(WINDOW)])
    yield performative(ATTACH, ["shelf", Uint(0), True, Ubyte(2), Ubyte(0), source, target])
    yield performative(FLOW, [Uint(0), Uint(WINDOW), Uint(0), Uint(WINDOW), Uint(0), Uint(0), Uint(1_000_000)])


def accepting(first, last):
    return performative(DISPOSITION, [True, Uint(first), Uint(last), True, ACCEPTED])


def message(size):
    """A data section of so many bytes."""
    return b"\x00\x53\x75\xb0" + size.to_bytes(4, "big") + bytes(size)


class Sender:
    def __init__(self, max_frame):
        self.connection, self.transport = Connection(), Transport(Transport.CLIENT)
        self.connection.container = "dabberblue"
        self.transport.bind(self.connection)
        self.connection.open()
        session = self.connection.session()
        session.open()
        self.link = session.sender("shelf")
        self.link.open()
        self.drained()
        for raw in peer_opening(max_frame):
            self.transport.push(raw)
        self.drained()

    def drained(self):
        """Takes what the transport has to say, and answers how many bytes that was."""
        taken = 0
        while (size := self.transport.pending()) > 0:
            self.transport.pop(size)
            taken += size
        return taken

    def send(self, tag, raw):
        delivery = self.link.delivery(tag)
        self.link.stream(raw)
        self.link.advance()
        return delivery, self.drained()

    def answer(self, first, deliveries):
        self.transport.push(accepting(first, first + len(deliveries) - 1))
        for delivery in deliveries:
            assert delivery.settled
            delivery.settle()
        self.drained()


def by_python(max_frame, size, count, batch):
    """Seconds of sending, seconds of all, and bytes on the wire."""
    sender, raw = Sender(max_frame), message(size)
    sending, wire, begun = 0.0, 0, time.process_time()
    for first in range(0, count, batch):
        start, deliveries = time.process_time(), []
        for n in range(first, first + batch):
            delivery, written = sender.send("%08x" % n, raw)
            deliveries.append(delivery)
            wire += written
        sending += time.process_time() - start
        sender.answer(first, deliveries)
    return sending, time.process_time() - begun, wire


def compiled(folder):
    """The program of proton_speed.c, or None where it cannot be built here."""
    source, program = Path(__file__).with_suffix(".c"), Path(folder) / "proton_speed"
    try:
        subprocess.run(["cc", "-O2", "-o", program, source, "-lqpid-proton"], check=True, capture_output=True)
    except (OSError, subprocess.CalledProcessError):
        print("proton_speed: no rows `c`: they need cc and libqpid-proton11-dev", file=sys.stderr)
        return None
    return program


def by_c(program):
    def measured(max_frame, *run):
        opening = b"".join(peer_opening(max_frame))
        said = subprocess.run([program, *map(str, run)], input=opening, capture_output=True, check=True).stdout.split()
        return float(said[0]), float(said[1]), int(said[2])
    return measured


def rates(size, count, seconds):
    return ["%.4f" % seconds, "%.1f" % (count / seconds), "%.0f" % (count * size / seconds)]


def row(name, measured, max_frame, size, count, batch):
    sending, whole, wire = min(measured(max_frame, size, count, batch) for _ in range(TIMES))
    return [name, str(max_frame), str(size), str(count), *rates(size, count, sending), *rates(size, count, whole), str(wire)]


def main():
    with tempfile.TemporaryDirectory() as folder:
        ways, program = [("python", by_python)], compiled(folder)
        if program:
            ways.append(("c", by_c(program)))
        print("\t".join(HEAD))
        for name, measured in ways:
            for run in RUNS:
                for max_frame in FRAMES:
                    print("\t".join(row(name, measured, max_frame, *run)), flush=True)


main()
