"""The answers of a scenario without what the two cannot tell alike, whatever they do.

- A resuming transfer's state: ours says where its payload starts. docs/DIFFERENCES.md has it under a name of its own.
- In the resume list ours has the whole entry, and the peer's place, until its turn comes; theirs has cut it, and of an abort
  keeps no more than tag and format. In the resend list theirs has no tags.
"""
import re

NULL = b'\x40'
# The bytes that follow the code of a value, or of its length.
WIDTHS = {0x40: 0, 0x41: 0, 0x42: 0, 0x43: 0, 0x44: 0, 0x45: 0, 0x52: 1, 0x53: 1, 0x70: 4, 0x80: 8}
TRANSFER = bytes.fromhex('005314')
STATE, RESUME, ABORTED = 7, 8, 9


def end_of_value(header, at):
    """Where the value that begins at a place of a compact header ends."""
    code = header[at]
    if code == 0x00:
        return end_of_value(header, end_of_value(header, at + 1))
    if code in WIDTHS:
        return at + 1 + WIDTHS[code]
    return at + 2 + header[at + 1]


def fields(header):
    """The fields of a transfer, each as bytes."""
    at, found = 6, []
    while at < len(header):
        end = end_of_value(header, at)
        found.append(header[at:end])
        at = end
    return found + [NULL] * (11 - len(found))


def header(header):
    if header[:3] != TRANSFER:
        return header.hex()
    found = fields(header)
    if found[RESUME] != NULL and found[ABORTED] == NULL:
        found[STATE] = NULL
    return ' '.join(field.hex() for field in found)


def records(digits):
    """The records of a spool, as (kind, handle, header, payload)."""
    data, at, found = bytes.fromhex(digits.replace('-', '')), 0, []
    while at < len(data):
        number = lambda i, j: int.from_bytes(data[at + i:at + j], 'little')
        length, size = number(0, 4), number(10, 12)
        found.append((number(4, 6), number(6, 10), header(data[at + 12:at + 12 + size]),
                      data[at + 12 + size:at + 4 + length].hex()))
        at += 4 + length
    return found


def item(text):
    kind, rest = text.split(':', 1)
    parts = rest.split(':')
    if kind == 'resume':
        return f'resume:{parts[0]}:{":".join(parts[2:5])}'
    if kind == 'abort':
        return f'abort:{parts[0]}:{parts[3] if len(parts) > 2 else parts[1]}'
    return text


def state(text):
    """The fields of a `state` answer: the link's state, and by their names the others, lists as lists."""
    found = {'state': text.split()[0]}
    for key, items, word in re.findall(r'(\w+)=(?:\[(.*?)\]|(\S+))', text):
        found[key] = word or items.split()
    found['resume'] = [item(part) for part in found['resume']]
    found['resend'] = [part.split(':', 1)[1] if part.count(':') == 4 else part for part in found['resend']]
    return found


def normal(answer):
    """What of a line's answer has to be alike."""
    command, _, text = answer.partition(': ')
    if command == 'state':
        return state(text)
    if command == 'empty':
        return records(text)
    if command == 'take' and text != 'none':
        words = dict(word.split('=') for word in text.split())
        return words['kind'], words['handle'], header(bytes.fromhex(words['header'])), words['payload']
    return answer
