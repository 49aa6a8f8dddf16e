"""Messages of the Negentropy Protocol V1, read and printed as showmsg prints them: another implementation, written from the
protocol's text, simple and slow."""

MOST = 2**64 - 1
INFINITY = (1, 0, b"")


class Refused(Exception):
    """The number of a refusal."""


class Reader:
    def __init__(self, data):
        self.data = data
        self.at = 0

    def byte(self):
        if self.at == len(self.data):
            raise Refused(7)
        self.at += 1
        return self.data[self.at - 1]

    def take(self, count):
        return bytes(self.byte() for _ in range(min(count, len(self.data) - self.at + 1)))

    def varint(self):
        value = 0
        first = True
        while True:
            byte = self.byte()
            if first and byte == 0x80:
                raise Refused(8)
            first = False
            value = value * 128 + (byte & 0x7F)
            if value > MOST:
                raise Refused(8)
            if byte < 0x80:
                return value


def order(bound):
    """What bounds compare by: infinity last, then the time, then the prefix filled with 00."""
    infinite, time, prefix = bound
    return (infinite, time, prefix.ljust(32, b"\0"))


def read_range(reader, lower):
    code = reader.varint()
    if code == 0:
        if reader.varint() > 0:
            raise Refused(9)
        bound = INFINITY
    else:
        if lower[0] == 1 or lower[1] + code - 1 > MOST - 1:
            raise Refused(9)
        length = reader.varint()
        if length > 32:
            raise Refused(9)
        bound = (0, lower[1] + code - 1, reader.take(length))
    if order(bound) <= order(lower):
        raise Refused(9)
    mode = reader.varint()
    if mode > 2:
        raise Refused(10)
    if mode == 0:
        return bound, ("skip", "-")
    if mode == 1:
        return bound, ("fingerprint", reader.take(16).hex())
    count = reader.varint()
    reader.take(32 * count)
    return bound, ("ids", str(count))


def read_message(data):
    if data[:1] != b"\x61":
        raise Refused(6)
    reader = Reader(data)
    reader.byte()
    lower = (0, 0, b"")
    ranges = []
    while reader.at < len(data):
        lower, payload = read_range(reader, lower)
        ranges.append((lower, payload))
    return ranges


def show(data):
    """What showmsg prints."""
    if len(data) > 65536:
        return "too long\n"
    try:
        ranges = read_message(data)
    except Refused as refused:
        return f"refused {refused}\n"
    lines = []
    for (infinite, time, prefix), (mode, payload) in ranges:
        lines.append(f"{'inf' if infinite else time} {prefix.hex() or '-'} {mode} {payload}\n")
    return "".join(lines)


def varint(value):
    digits = [value % 128]
    while value := value // 128:
        digits.append(128 + value % 128)
    return bytes(reversed(digits))
