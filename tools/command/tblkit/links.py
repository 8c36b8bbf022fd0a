"""How a ground system is spoken to: what comes as a command, and what is sent of an answer."""
from collections.abc import Iterable

from . import cfe, packets

# The kinds of packets that go to the ground. A notice is for an application.
TO_GROUND = ("housekeeping", "event", "registry")
CHECKSUM = 7


class Plain:
    """The layouts of this project. With `is_any_checksum` a command is taken whatever its checksum is."""

    def __init__(self, is_any_checksum=False) -> None:
        self._is_any_checksum = is_any_checksum

    def command(self, packet) -> bytes | None:
        """The command of a datagram; None for one that isn't for the service."""
        return whole(packet) if self._is_any_checksum else packet

    def packets(self, answer) -> Iterable[bytes]:
        """The packets of an answer that go to the ground, each of which is taken."""
        return [it.content for it in answer.packets if it.kind in TO_GROUND]

    def know(self, name) -> None:
        """A file of this name is there already, where a dump may write it: of no concern here."""


class Cfe(Plain):
    """cFE's layouts, with cFE's events. On cFE's bus the table task hears its own message ids alone, so other packets are nobody's.
    It looks at no checksum."""

    def __init__(self, sender, order=cfe.LITTLE) -> None:
        super().__init__(is_any_checksum=True)
        self._sender, self._order = sender, order

    def command(self, packet) -> bytes | None:
        if len(packet) < packets.COMMAND_HEADER or packets.number(packet[:2]) not in (packets.COMMAND_ID, packets.HOUSEKEEPING_ID):
            return None
        return super().command(cfe.command(packet, self._order))

    def packets(self, answer) -> Iterable[bytes]:
        return self._sender.packets(answer)

    def know(self, name) -> None:
        self._sender.know(name)


def whole(packet) -> bytes:
    """A command with the checksum that it should have."""
    if len(packet) < packets.COMMAND_HEADER:
        return packet
    checksum = 0xFF ^ packets.exclusive_or(packet) ^ packet[CHECKSUM]
    return packet[:CHECKSUM] + bytes([checksum]) + packet[CHECKSUM + 1:]
