"""Makes the table that the program `headers` reads, from uamqp.txt, proton.txt and wide.txt.

With `--check` it compares what the program has to print for it, where that is known here: of a whole header the line of its fields,
of one that is cut short its length, and of one with a byte more the place of that byte."""
import sys

from cases import HEADERS, text

DATA = "../crates/headers/data/headers.txt"
STDOUT = "../crates/headers/stdout"
FIELDS = dict(HEADERS)
DAMAGED = [
    ("compact", "uamqp.txt", "a resumed delivery, received in part"),
    ("compact", "uamqp.txt", "rejected: not-found"),
    ("wide", "wide.txt", "a resumed delivery, received in part"),
    ("wide", "wide.txt", "modified, not failed, and undeliverable"),
]


def rows(path):
    for line in open(path):
        name, raw = line.rstrip("\n").split("\t")
        yield name, bytes.fromhex(raw)


lines, expected = [], []


def heading(words):
    lines.append("# " + words)


def row(form, raw, answer=None):
    lines.append(("%s %s" % (form, raw.hex())).rstrip())
    expected.append(answer)


for form, path, whose in (("compact", "uamqp.txt", "uamqp"), ("compact", "proton.txt", "Qpid Proton"), ("wide", "wide.txt", "the standard's tables")):
    for name, raw in rows(path):
        heading("%s, by %s" % (name, whose))
        row(form, raw, text(FIELDS[name]) if name in FIELDS else None)
heading("a list code of four bytes on a wide line, by Qpid Proton")
row("wide", dict(rows("proton.txt"))["by its codec: a new delivery's first frame"])
for form, path, name in DAMAGED:
    raw = dict(rows(path))[name]
    heading("%s, each byte one more" % name)
    for i, b in enumerate(raw):
        row(form, raw[:i] + bytes([(b + 1) % 256]) + raw[i + 1:])
    heading("%s, cut short" % name)
    for i in range(len(raw)):
        row(form, raw[:i], "refused 18 at %d" % i)
    heading("%s, with one byte more" % name)
    row(form, raw + b"\x40", "refused 18 at %d" % len(raw))

if "--check" in sys.argv:
    printed = open(STDOUT).read().splitlines()
    assert len(printed) == len(expected) + 1
    for n, (want, got) in enumerate(zip(expected, printed), 1):
        assert want in (None, got), (n, want, got)
    known = sum(want is not None for want in expected)
    print("%d of %d lines are as they have to be" % (known, len(expected)))
else:
    open(DATA, "w").write("\n".join(lines) + "\n")
