"""Makes the files that the program `unspool` reads, from the headers in uamqp.txt: a sound one, one with no records, and damaged ones.

With `--check` it compares what the program has to print for them."""
import struct
import sys

from cases import HEADERS, text

DATA = "../crates/unspool/data/"
STDOUT = "../crates/unspool/stdout"
FIELDS = dict(HEADERS)
FIRST, CONTINUATION, DISPOSITION = 1, 2, 3
KINDS = {FIRST: "first", CONTINUATION: "continuation", DISPOSITION: "disposition"}


def rows():
    for line in open("uamqp.txt"):
        name, raw = line.rstrip("\n").split("\t")
        yield name, bytes.fromhex(raw)


def record(kind, handle, header, payload):
    return struct.pack("<IHIH", 8 + len(header) + len(payload), kind, handle, len(header)) + header + payload


def kind_of(name, header):
    if header[2] == 0x15:
        return DISPOSITION
    return CONTINUATION if name == "a continuation" else FIRST


# Every header, each with another handle and a longer payload.
whole, lines, payloads = [], [], []
for n, (name, header) in enumerate((name, header) for name, header in rows() if name in FIELDS):
    kind = kind_of(name, header)
    handle = 0 if kind == DISPOSITION else n * 0x01020304 % 2**32
    payload = b"" if kind == DISPOSITION else bytes(range(256))[:9 * n]
    whole.append(record(kind, handle, header, payload))
    payloads.append(len(payload))
    lines.append("%s, handle %d, %d bytes: %s" % (KINDS[kind], handle, len(payload), text(FIELDS[name])))

files = []


def file(name, raw, records, fault=None):
    files.append((name, raw))
    expected.extend(lines[:records])
    if fault is not None:
        expected.append("refused 18 at %d" % fault)
    expected.append("%s: %d records, %d bytes of payload" % (name, records, sum(payloads[:records])))


expected = []
file("sound.spool", b"".join(whole), len(whole))
file("empty.spool", b"", 0)

# The third record is damaged: two stand before it.
before, third = whole[0] + whole[1], whole[2]
at = len(before)
header = third[12:12 + third[10]]


def damaged(name, raw, place):
    file(name, before + raw, 2, at + place)


def changed(place, byte):
    return third[:place] + bytes([byte]) + third[place + 1:]


for size in (1, 4, 5, 9, 11, 13, len(third) - 1):
    damaged("cut_at_%d.spool" % size, third[:size], size)
damaged("short_length.spool", struct.pack("<I", 7) + third[4:], 0)
damaged("no_kind.spool", changed(4, 4), 4)
damaged("wide_kind.spool", changed(5, 1), 4)
damaged("header_past_record.spool", struct.pack("<IHIH", 8 + len(header), CONTINUATION, 0, len(header) + 1) + header, 10)
damaged("header_code.spool", changed(13, 0x54), 13)
damaged("header_spare.spool", record(CONTINUATION, 0, header + b"\x40", b""), 12 + len(header))

if "--check" in sys.argv:
    printed = open(STDOUT).read().splitlines()
    assert printed == expected, [(n, w, g) for n, (w, g) in enumerate(zip(expected, printed), 1) if w != g][:3]
    print("%d lines are as they have to be" % len(expected))
else:
    for name, raw in files:
        open(DATA + name, "wb").write(raw)
    open("../crates/unspool/args", "w").write("".join(name + "\n" for name, _ in files))
    open(STDOUT, "w").write("".join(line + "\n" for line in expected))
