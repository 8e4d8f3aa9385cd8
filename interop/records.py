"""The records of a spool: a 4-byte length of what follows it, kind, handle, length of the header, header and payload."""
import struct
from collections import namedtuple

FIRST, CONTINUATION, DISPOSITION = 1, 2, 3

Record = namedtuple("Record", "kind handle header payload")


def records(raw):
    at = 0
    while at < len(raw):
        length, kind, handle, header = struct.unpack("<IHIH", raw[at:at + 12])
        end = at + 4 + length
        assert end <= len(raw), "the last record is cut off"
        yield Record(kind, handle, raw[at + 12:at + 12 + header], raw[at + 12 + header:end])
        at = end
