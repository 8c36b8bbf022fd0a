"""Captures: packets as UDP datagrams in a file of the format pcapng, which Wireshark opens.

Commands go from the ground to port 1234 of the service, and what the service sends goes to port 1235, the ports that cFS's
ci_lab and to_lab have by default. The addresses are of the block for documentation (RFC 5737). An event tells the row of a
table and not its name, so the name stands beside it as a comment on the packet, where it is known.
"""
import struct

from . import packets

SECTION, INTERFACE, PACKET = 0x0A0D0D0A, 1, 6
COMMENT = 1
RAW_IP = 101
GROUND, SERVICE = bytes([192, 0, 2, 1]), bytes([192, 0, 2, 2])
COMMAND_PORT, TELEMETRY_PORT = 1234, 1235
IP_HEADER, UDP_HEADER = 20, 8
MOST_CONTENT = 0xFFFF - IP_HEADER - UDP_HEADER


def _checksum(header) -> int:
    """The checksum of an IPv4 header (RFC 791)."""
    total = sum(struct.unpack(f">{len(header) // 2}H", header))
    while total >> 16:
        total = (total & 0xFFFF) + (total >> 16)
    return total ^ 0xFFFF


def datagram(content, sender, receiver, port) -> bytes:
    """An IPv4 packet with a UDP datagram without checksum."""
    length = IP_HEADER + UDP_HEADER + len(content)
    header = struct.pack(">BBHHHBBH4s4s", 0x45, 0, length, 0, 0, 64, 17, 0, sender, receiver)
    header = header[:10] + _checksum(header).to_bytes(2, "big") + header[12:]
    return header + struct.pack(">HHHH", port, port, UDP_HEADER + len(content), 0) + content


def _padded(content) -> bytes:
    return content + bytes(-len(content) % 4)


def block(kind, body) -> bytes:
    """A block of the format: its kind, its length before and after the body, and the body."""
    length = struct.pack(">I", len(body) + 12)
    return struct.pack(">I", kind) + length + body + length


def comment_option(words) -> bytes:
    """A comment on a packet, with the mark that ends the options; nothing where there are no words."""
    text = words.encode("ascii")
    return struct.pack(">HH", COMMENT, len(text)) + _padded(text) + bytes(4) if text else b""


class Capture:
    """A capture that is written. Its times are the service's, as its telemetry tells them. Of what is no packet and too
    long for a datagram it has the front."""

    def __init__(self, file) -> None:
        self._file, self._microseconds = file, 0
        file.write(block(SECTION, struct.pack(">IHHq", 0x1A2B3C4D, 1, 0, -1)))
        file.write(block(INTERFACE, struct.pack(">HHI", RAW_IP, 0, 65535)))

    def _write(self, content, sender, receiver, port, words="") -> None:
        frame = datagram(content[:MOST_CONTENT], sender, receiver, port)
        head = struct.pack(">IQII", 0, self._microseconds, len(frame), len(frame))
        self._file.write(block(PACKET, head + _padded(frame) + comment_option(words)))

    def add_command(self, content) -> None:
        """A datagram to the service."""
        self._write(content, GROUND, SERVICE, COMMAND_PORT)

    def add_telemetry(self, content) -> None:
        """A datagram that the service sent."""
        self._write(content, SERVICE, GROUND, TELEMETRY_PORT)

    def add(self, answer) -> None:
        """A command as it was sent, then the packets that it made the service send."""
        if answer.record is not None and answer.record.request.name == "Command":
            self.add_command(answer.record.body)
        for packet in answer.packets:
            seconds, subseconds, row = (packet.field(it) for it in ("seconds", "subseconds", "row"))
            if seconds:
                self._microseconds = seconds.value * 1000000 + (subseconds.value * 1000000 >> 16)
            is_named = row is not None and row.value in answer.view.rows
            self._write(packet.content, SERVICE, GROUND, TELEMETRY_PORT,
                        f"row {answer.view.row_words(row.words, row.value)}" if is_named else "")
