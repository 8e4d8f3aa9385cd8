"""What uamqp's encoder, azure-uamqp-c, makes of headers: `NAME TAB HEX` for each."""
from uamqp import c_uamqp as c

from cases import ABSENT, DEFAULTS, HEADERS, Described, Symbol, Uint, Ulong, transfer, disposition, TAG


def value(x, whole):
    if x is ABSENT:
        return c.null_value()
    if isinstance(x, Described):
        return c.described_value(c.ulong_value(x.code), items(x, whole))
    if isinstance(x, Symbol):
        return c.symbol_value(x.encode())
    if isinstance(x, Uint):
        return c.uint_value(x)
    if isinstance(x, Ulong):
        return c.ulong_value(x)
    if isinstance(x, bool):
        return c.bool_value(x)
    return c.binary_value(x)


def items(d, whole):
    """The fields: the caller of this encoder leaves out what may be left out, unless it is to write all."""
    fields = list(d.fields)
    if not whole:
        for i in DEFAULTS.get(d.code, ()):
            if not fields[i]:
                fields[i] = ABSENT
        while fields and fields[-1] is ABSENT:
            fields.pop()
    made = c.list_value()
    made.size = len(fields)
    for i, x in enumerate(fields):
        made[i] = value(x, whole)
    return made


def encode(d, whole=False):
    message = c.create_message()
    message.set_body_value(value(d, whole))
    out = []
    c.get_encoded_message_size(message, out)
    body = b"".join(out)
    # The body of a message stands after the code of its section (Part 3, 3.2.8).
    assert body[:3] == b"\x00\x53\x77"
    return body[3:]


for name, h in HEADERS:
    print("%s\t%s" % (name, encode(h).hex()))
print("every field written, false and null alike\t" + encode(transfer(id=7, tag=TAG, format=0, settled=False), True).hex())
print("every field written, in a disposition\t" + encode(disposition(settled=True), True).hex())
print("a tag of 33 bytes\t" + encode(transfer(id=1, tag=bytes(33), format=0)).hex())
