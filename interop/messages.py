"""The messages of the scenarios, as they lie in one pool."""
from shipped import content
from wire import Symbol, encode

# What each message's data section holds: a shelf's name and a size.
HELD = (("response", 100), ("mesh", 1200), ("raylog", 600), ("raylog", 900), ("response", 10_000))
# The message that begins with annotations (Part 3, 3.2.3).
ANNOTATED = 3
ANNOTATIONS = b"\x00\x53\x72" + encode({Symbol("x-opt-shelf"): "raylog"})


def data_section(raw):
    """Part 3, 3.2.6."""
    length = bytes([0xa0, len(raw)]) if len(raw) < 256 else b"\xb0" + len(raw).to_bytes(4, "big")
    return b"\x00\x53\x75" + length + raw


def contents():
    return [content(*held) for held in HELD]


def encoded():
    return [(ANNOTATIONS if n == ANNOTATED else b"") + data_section(raw) for n, raw in enumerate(contents())]


def pool():
    return b"".join(encoded())
