"""Announces participants, writers and readers on loopback in messages of RTPS 2.1, as another vendor may, however odd. Nobody is behind them."""

import socket
import struct
import threading

ALIVE, TO_PARTICIPANTS = 0x000100C2, 0x000100C7
# the writers and readers of discovery that tell of writers, and those that tell of readers
SECTIONS = {"writer": (0x000003C2, 0x000003C7), "reader": (0x000004C2, 0x000004C7)}
# what an endpoint is, by whether its type has no keys
ENTITIES = {("writer", False): 0x02, ("writer", True): 0x03, ("reader", False): 0x07, ("reader", True): 0x04}
FIRST_PORT, OF_DOMAIN, OF_PARTICIPANT = 7410, 250, 2
LISTENERS = 4
# none of a vendor
VENDOR = b"\x99\x99"


def padded(data):
    return data + bytes(-len(data) % 4)


def text(data):
    """A string of CDR, which may have bytes of any value."""
    return padded(struct.pack("<I", len(data) + 1) + data + b"\0")


def sequence(items):
    return struct.pack("<I", len(items)) + b"".join(items)


def parameter(number, value):
    value = padded(value)
    return struct.pack("<HH", number, len(value)) + value


def locator(port):
    return struct.pack("<iI", 1, port) + bytes(12) + socket.inet_aton("127.0.0.1")


class Participant:
    """One with endpoints, each of which is a kind and what is said of it: `topic`, `type` and `name` are bytes or None, `partitions` is a list of bytes,
    `keyless` says that its type has no keys, and `samples` are the numbers of what a writer sends, each with some bytes."""

    def __init__(self, number, endpoints, name=None, properties=(), vendor=VENDOR):
        self.prefix = vendor + struct.pack(">QH", 0x1122334455667788, number)
        self._endpoints, self._name, self._properties = endpoints, name, properties

    def messages(self, port):
        """What it sends: that it is there, and of each section what is there, in order, and how many these are."""
        found = [self._message(ALIVE, TO_PARTICIPANTS, 1, self._alive(port))]
        for kind, (writer, reader) in SECTIONS.items():
            told = [self._endpoint(kind, at, end) for at, (its_kind, end) in enumerate(self._endpoints) if its_kind == kind]
            found += [self._message(writer, reader, at + 1, one) for at, one in enumerate(told)]
            if told:
                heartbeat = struct.pack(">II", reader, writer) + struct.pack("<iIiII", 0, 1, 0, len(told), 1)
                found.append(self._header() + struct.pack("<BBH", 0x07, 0x01, len(heartbeat)) + heartbeat)
        return found + [self._sample(kind, at, end, number) for at, (kind, end) in enumerate(self._endpoints) for number in end.get("samples", ())]

    def _entity(self, kind, at, end):
        return (at + 1) << 8 | ENTITIES[kind, bool(end.get("keyless"))]

    def _sample(self, kind, at, end, number):
        """A sample for all readers, without the time of its write, and with data that are of no type."""
        body = struct.pack("<HH", 0, 16) + struct.pack(">II", 0, self._entity(kind, at, end)) + struct.pack("<iI", number >> 32, number & 0xFFFFFFFF)
        body += b"\x00\x01\x00\x00" + b"\xff" * 8
        return self._header() + struct.pack("<BBH", 0x15, 0x05, len(body)) + body

    def _header(self):
        return b"RTPS\x02\x01" + VENDOR + self.prefix

    def _message(self, writer, reader, number, parameters):
        body = struct.pack("<HH", 0, 16) + struct.pack(">II", reader, writer) + struct.pack("<iI", 0, number)
        # a parameter list in little-endian CDR, which ends by the parameter 1; the message ends by its only submessage, which may be a long one
        body += b"\x00\x03\x00\x00" + parameters + parameter(1, b"")
        return self._header() + struct.pack("<BBH", 0x15, 0x05, len(body) if len(body) < 2**16 else 0) + body

    def _alive(self, port):
        said = parameter(0x15, b"\x02\x01") + parameter(0x16, VENDOR) + parameter(0x50, self.prefix + b"\0\0\x01\xc1")
        said += parameter(0x32, locator(port)) + parameter(0x31, locator(port)) + parameter(0x02, struct.pack("<iI", 100, 0)) + parameter(0x58, struct.pack("<I", 0x3F))
        if self._name is not None:
            said += parameter(0x62, text(self._name))
        if self._properties:
            said += parameter(0x59, sequence([text(name) + text(value) for name, value in self._properties]))
        return said

    def _endpoint(self, kind, at, end):
        said = parameter(0x5A, self.prefix + struct.pack(">I", self._entity(kind, at, end)))
        for number, field in ((0x05, "topic"), (0x07, "type"), (0x62, "name")):
            if end.get(field) is not None:
                said += parameter(number, text(end[field]))
        if "partitions" in end:
            said += parameter(0x29, sequence([text(one) for one in end["partitions"]]))
        return said + b"".join(parameter(number, value) for number, value in end.get("more", ()))


class Announcing:
    """Announces participants in a domain again and again, as long as it is open. Each message may be changed before."""

    def __init__(self, domain, participants, change=lambda message: message):
        self._over = threading.Event()
        self._socket = socket.socket(socket.AF_INET, socket.SOCK_DGRAM)
        self._socket.bind(("127.0.0.1", 0))
        ports = [FIRST_PORT + OF_DOMAIN * domain + OF_PARTICIPANT * at for at in range(LISTENERS)]
        own = self._socket.getsockname()[1]
        messages = [change(message) for one in participants for message in one.messages(own)]
        self._packets = [(message, ("127.0.0.1", port)) for message in messages for port in ports]
        self._thread = threading.Thread(target=self._send)

    def _send(self):
        while not self._over.wait(0.3):
            for message, address in self._packets:
                self._socket.sendto(message, address)

    def __enter__(self):
        self._thread.start()
        return self

    def __exit__(self, *_):
        self._over.set()
        self._thread.join()
        self._socket.close()
