"""Tenso-M frames: FF, body, FF FF."""

from second.refusal import Refused

FF, FE = 0xFF, 0xFE


def enter(check, byte):
    """One byte enters bit by bit, highest first, at the low end; a bit
    shifted out at the top xors 69h."""
    for place in range(7, -1, -1):
        check = check << 1 | byte >> place & 1
        if check > 255:
            check = check & 255 ^ 0x69
    return check


def run(body):
    """The check over bytes, from 0."""
    check = 0
    for byte in body:
        check = enter(check, byte)
    return check


def check_byte(body):
    """A zero byte is added at the end."""
    return run(body + b'\0')


def address_length(body):
    """First byte 0: three serial bytes follow."""
    return 4 if body[:1] == b'\0' else 1


def stuffed(body):
    """Inside a body FF is sent as FF FE."""
    return body.replace(b'\xFF', b'\xFF\xFE')


def write(body, room):
    """The frame of a body without its check."""
    # R14: begins with FF or FE, or is not 2..254 bytes (5..254 if it
    # begins with 0).
    least = address_length(body) + 1
    if body[:1] in (b'\xFF', b'\xFE') or not least <= len(body) <= 254:
        raise Refused(14)
    whole = body + bytes([check_byte(body)])
    frame = b'\xFF' + stuffed(whole) + b'\xFF\xFF'
    if len(frame) > room:
        raise Refused(8)
    return frame


class Reader:
    """Takes bytes one at a time; `finished` is a body once FF FF ended it."""

    def __init__(self):
        self.place = 0          # of the next byte
        self.last_ff = None     # the last FF seen
        self.offer = None       # R9's place, None: the length
        self.state = self.skip
        self.body = bytearray()
        self.finished = None

    def byte(self, byte):
        self.state(byte)
        if byte == FF:
            self.last_ff = self.place
        if self.state == self.seek:
            self.offer = self.last_ff
        self.place += 1

    def skip(self, byte):
        """Skip to an FF."""
        if byte == FF:
            self.state = self.seek

    def seek(self, byte):
        """The body begins at the next byte that is neither FF nor FE."""
        if byte not in (FF, FE):
            self.begin(byte)

    def begin(self, byte):
        self.offer = self.last_ff
        self.body = bytearray([byte])
        self.state = self.inside

    def inside(self, byte):
        if byte == FF:
            self.state = self.after_ff
        else:
            self.add(byte)

    def after_ff(self, byte):
        """FF FF ends the body. FF followed by a byte other than FF or FE
        drops it, and that byte begins a new one."""
        if byte == FF:
            self.finished = bytes(self.body)
        elif byte == FE:
            self.state = self.inside
            self.add(FF)
        else:
            self.begin(byte)

    def add(self, byte):
        """At the 256th body byte the body is dropped."""
        self.body.append(byte)
        if len(self.body) == 256:
            self.state = self.skip
            self.offer = None


def first_body(data):
    """The first finished body and the place of its second closing FF."""
    reader = Reader()
    for place, byte in enumerate(data):
        reader.byte(byte)
        if reader.finished is not None:
            return place, reader.finished
    raise Refused(9, len(data) if reader.offer is None else reader.offer)


def read(data):
    """The first finished body with its check; R9, then R6."""
    place, body = first_body(data)
    # R6: under 3 bytes (6 if extended), or check not 0.
    if len(body) < address_length(body) + 2 or run(body) != 0:
        raise Refused(6, place)
    return place, body
