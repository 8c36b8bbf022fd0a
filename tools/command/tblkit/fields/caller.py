"""caller.py STAND-INS LIBRARY FUNCTION SECONDS: calls a validation function with the image on standard input, in a process that ends
with it, or after so many seconds of work. It writes a line of JSON for each event, and last one with the return code."""
import contextlib
import ctypes
import json
import os
import resource
import sys
from collections.abc import Callable

EVENT_TYPES = {1: "DEBUG", 2: "INFORMATION", 3: "ERROR", 4: "CRITICAL"}
NO_EVENT = 0
# Aligned for any type, as the buffers of Table Services are.
ALIGNMENT = 64


def output() -> int:
    """Where the lines go. What the application prints itself isn't mixed with them."""
    kept = os.dup(1)
    os.dup2(2, 1)
    return kept


def teller(into: int) -> Callable[..., None]:
    """Writes a line of JSON."""
    def tell(**what) -> None:
        os.write(into, json.dumps(what).encode() + b"\n")

    return tell


def event_line(number: int, kind: int, text: bytes) -> str:
    front = "log" if kind == NO_EVENT else f"event {number} {EVENT_TYPES.get(kind, f'of type {kind}')}"
    return f"{front}: {text.decode('utf-8', 'backslashreplace').rstrip()}"


def call(called, image: bytes) -> int:
    called.restype = ctypes.c_int32
    held = ctypes.create_string_buffer(len(image) + ALIGNMENT)
    address = ctypes.addressof(held) + -ctypes.addressof(held) % ALIGNMENT
    ctypes.memmove(address, image, len(image))
    return called(ctypes.c_void_p(address))


def main(stand_ins: str, library: str, function: str, seconds: str) -> int:
    image, tell = sys.stdin.buffer.read(), teller(output())
    taker = ctypes.CFUNCTYPE(None, ctypes.c_uint16, ctypes.c_uint16, ctypes.c_char_p)(
        lambda number, kind, text: tell(line=event_line(number, kind, text)))
    try:
        ctypes.CDLL(stand_ins, mode=ctypes.RTLD_GLOBAL).cfetbl_take_events(taker)
        called = ctypes.CDLL(library, mode=os.RTLD_LAZY)[function]
    except (OSError, AttributeError) as error:
        print(error, file=sys.stderr)
        return 1
    resource.setrlimit(resource.RLIMIT_CPU, (int(seconds), int(seconds) + 1))
    tell(code=call(called, image))
    return 0


if __name__ == "__main__":
    with contextlib.suppress(KeyboardInterrupt):
        sys.exit(main(*sys.argv[1:]))
