"""Recorded sessions, where they lie beside the repository: ../shared/conformance, a line of JSON a case. They come from
other implementations of the same service, and `decoded` says in their own words what the transcript has."""
import base64
import json
import os
import zlib
from dataclasses import dataclass

from .amounts import amount

TOP = os.path.dirname(os.path.dirname(os.path.dirname(os.path.dirname(os.path.realpath(__file__)))))
FOLDER = os.path.join(os.path.dirname(TOP), "shared", "conformance")
PLAYED = ("play", "crew", "watch")
# A session that has more bytes, with its output, isn't looked at.
MOST_BYTES = amount(1 << 30, 8_000)


@dataclass(frozen=True)
class Case:
    pack: str
    name: str
    session: bytes
    output: bytes
    decoded: list


def packs():
    """The names of the packs; none where there are no recorded sessions."""
    try:
        with open(os.path.join(FOLDER, "packs.txt"), encoding="ascii") as lines:
            return [line.split()[0] for line in lines if line.strip() and not line.startswith("#")]
    except FileNotFoundError:
        return []


def _unpacked(text):
    return zlib.decompress(base64.b64decode(text)) if text else b""


def sessions(pack):
    """The sessions of a pack; none where the pack isn't there. `decoded` is empty where the output is no transcript."""
    if pack not in packs():
        return
    with open(os.path.join(FOLDER, pack + ".jsonl"), encoding="utf-8") as lines:
        for line in lines:
            case = json.loads(line)
            if not case["args"] or case["args"][0] not in PLAYED:
                continue
            session, output = _unpacked(case["in"]), _unpacked(case["out"])
            if len(session) + len(output) <= MOST_BYTES:
                is_transcript = case["args"][0] != "watch"
                lines = _unpacked(case.get("decoded", "")).decode("utf-8").splitlines() if is_transcript else []
                decoded = [json.loads(it) for it in lines]
                yield Case(pack, case["name"], session, output, decoded)
