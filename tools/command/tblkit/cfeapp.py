"""The calls of sessions as the lines of an application of cFE, c/cfe-app/cfetbl_calls.c. What cFE can't be asked for is left out,
and named by its place.
"""
import io
import itertools
import os
import re
import shutil
from collections.abc import Iterator

from . import layouts, names, packets, programs, records, text
from .tables import REGISTERED, SUCCESS

# The application that sends the commands, and the folder of the files of which it tells.
GROUND, FOLDER = "CFETBL_GROUND", "/ram/f"
# The place of a request of a walk.
WALK = "--cover"
MOST_APPS, MOST_HANDLES, MOST_BLOCKS = (layouts.number(it) for it in ("applications", "handles", "blocks of the Critical Data Store"))
LONGEST_LINE, LONGEST_WORD, SHORTEST_RUN = 2_000, 64, 8
DUPLICATE, EXISTS = layouts.statuses("DUPLICATE", "CDS_EXISTS")
PLAIN = re.compile(r"[A-Za-z0-9_./:-]+")
# The names of applications that a startup script takes.
APP = re.compile(rb"[A-Za-z0-9_-]{1,19}")
FUNCTIONS = {0: "first", 1: "xor"}
NO_FUNCTION = 0xFF
SOURCES = ("cfe-app/cfetbl_calls.c", "cfe-app/cfetbl_calls.h", "record/record.c", "record/record.h", "record/record_direct.h",
           "record/calls.h", "record/codes.h")
BY_HANDLE = {"Unregister": "unregister", "Update": "update", "Validate": "validate", "Manage": "manage", "DumpToBuffer": "dump-to-buffer",
             "Get": "get", "Release": "release", "GetStatus": "get-status"}


class LeftOut(Exception):
    """A request that cFE can't be asked for, and why."""


def word(content) -> str:
    """Bytes as a word of a line."""
    said = content.decode("latin-1")
    return said if PLAIN.fullmatch(said) and said != "-" else "".join(f"%{it:02X}" for it in content) or "%"


def digits(content) -> str:
    """Bytes as words of digits, a byte that stands often in a row as one with how often."""
    found, left = [], b""
    for byte, group in itertools.groupby(content):
        run = bytes(group)
        if len(run) < SHORTEST_RUN:
            left += run
            continue
        found += [*_words(left), f"{byte:02X}*{len(run)}"]
        left = b""
    return " ".join([*found, *_words(left)]) or "empty"


def _words(content) -> list[str]:
    return [content[at:at + LONGEST_WORD].hex().upper() for at in range(0, len(content), LONGEST_WORD)]


def pieces_of(name, session, folder=".") -> Iterator[tuple[str, records.Piece]]:
    """The records of a session, each with its place: the line of a text, or the number of the record."""
    if session is not None:
        for number, piece in enumerate(records.pieces(session)):
            yield f"{name}, record {number}", piece
        return
    with open(name, "rb") as lines:
        for number, line in enumerate(lines, 1):
            for piece in records.pieces(io.BytesIO(text.record_of(line.decode("utf-8", "replace"), folder))):
                yield f"{name}:{number}", piece


class Writer:
    """Makes the lines. `lines` has them, `apps` the names of the applications in their order, and `left_out` what was left out: place,
    request and reason. `reads` is how many requests read what a get has told already."""

    def __init__(self) -> None:
        self.lines, self.apps, self.left_out, self.reads = [], [GROUND.encode()], [], 0
        self._files, self._ended, self._own, self._is_fresh = {}, set(), {}, True

    def take(self, place, piece, running) -> None:
        """Takes a record, which is played for the handles that it gives."""
        if piece.fault:
            self._leave_out(place, piece, f"these bytes are no record: {piece.fault}")
            return
        view, tables = running.states.view, running.states.tables
        answer = next(iter(running.ask(piece.content)), None)
        if answer is None:
            self._leave_out(place, piece, "the session is over before it")
            return
        try:
            self._make(piece, answer, view, tables)
        except LeftOut as why:
            self._leave_out(place, piece, str(why))

    def take_lines(self, lines, running) -> None:
        """Takes a session that a walk has made."""
        for number, line in enumerate(lines, 1):
            for piece in records.pieces(io.BytesIO(text.record_of(line))):
                self.take(f"{WALK}, request {number}", piece, running)
        self.end_session(running)

    def calls(self) -> int:
        """How many calls are made."""
        return sum(1 for it in self.lines if not it.startswith("0 "))

    def end_session(self, running) -> None:
        """Ends a session, so that the next one finds its applications without tables."""
        for number, handle in sorted(running.states.view.handles.items()):
            if handle.actor in self._own:
                self.lines.append(f"{self._own[handle.actor]} unregister {number}")
        self._own, self._is_fresh = {}, True

    def _leave_out(self, place, piece, why) -> None:
        self.left_out.append((place, text.line_of(piece), why))

    def _make(self, piece, answer, view, tables) -> None:
        name = answer.request
        if piece.request.is_ground:
            self._ground(piece, answer)
        elif name == "Start":
            self._start(piece, answer)
        elif name == "Read":
            self.reads += 1
        else:
            made = self._call(piece, answer, view, tables)
            self.lines.append(f"{self._app(piece.actor)} {made}")
            self._is_fresh = False
            if name == "Exit" and answer.status == SUCCESS:
                self._ended.add(self._own.pop(piece.actor))

    # Applications.

    def _start(self, piece, answer) -> None:
        name = names.name_in(piece.body)
        if answer.status != SUCCESS or not APP.fullmatch(name):
            raise LeftOut("cFE doesn't start such an application")
        if name not in self.apps:
            if len(self.apps) > MOST_APPS:
                raise LeftOut(f"there are {MOST_APPS} applications before it")
            self.apps.append(name)
        number = self.apps.index(name)
        if number in self._ended:
            raise LeftOut("cFE starts an application that has ended by its startup script alone, so the calls after it are left out too")
        if number in self._own.values():
            raise LeftOut("in cFE no two applications have the same name")
        self._own[piece.actor] = number

    def _app(self, actor) -> int:
        if actor not in self._own:
            raise LeftOut("no such application runs in cFE then")
        return self._own[actor]

    # Calls.

    def _call(self, piece, answer, view, tables) -> str:
        self._app(piece.actor)
        name, body = answer.request, piece.body
        if name in BY_HANDLE:
            return f"{BY_HANDLE[name]} {_handle(body)}"
        if name in MAKERS:
            return MAKERS[name](self, answer, body, view, tables)
        raise LeftOut("cFE has no such call for applications")

    def _register(self, answer, body, view, tables) -> str:
        fields = {it.name: it.of(body) for it in names.fields("Register")}
        size, options, validator = (packets.number(fields[it]) for it in ("size", "options", "validator"))
        if validator != NO_FUNCTION and validator // 2 != answer.actor - 1:
            raise LeftOut("in cFE an application brings its validation functions along")
        function = "none" if validator == NO_FUNCTION else FUNCTIONS[validator % 2]
        number = answer.entry.number("detail") if answer.status in (*REGISTERED, DUPLICATE) else "-"
        return f"register {number} {word(names.name_in(fields['short name']))} {size} 0x{options:04X} {function}"

    def _share(self, answer, body, view, tables) -> str:
        number = answer.entry.number("detail") if answer.status == SUCCESS else "-"
        return f"share {number} {word(names.name_in(body))}"

    def _load(self, answer, body, view, tables) -> str:
        handle = view.handles.get(packets.number(body[:2]))
        if handle is not None and handle.table and len(body) - 2 != handle.size:
            raise LeftOut("cFE's call takes as many bytes as the table has")
        return f"load {_handle(body)} {digits(body[2:])}"

    def _load_file(self, answer, body, view, tables) -> str:
        return f"load-file {_handle(body)} {self._file(names.name_in(body[2:]))}"

    def _edit(self, answer, body, view, tables) -> str:
        handle = view.handles.get(packets.number(body[:2]))
        if answer.status != SUCCESS:
            raise LeftOut("in cFE the owner of a dump-only table writes through its address, and can't be refused")
        if tables[handle.table].pins:
            raise LeftOut("the table's address is in use")
        return f"edit {_handle(body)} {packets.number(body[2:6])} {digits(body[6:])}"

    def _get_info(self, answer, body, view, tables) -> str:
        return f"get-info {word(names.name_in(body))}"

    def _notify(self, answer, body, view, tables) -> str:
        message, code, parameter = (packets.number(names.field("Notify", it).of(body)) for it in ("message id", "function code", "parameter"))
        return f"notify {_handle(body)} 0x{message:04X} {code} {parameter}"

    def _exit(self, answer, body, view, tables) -> str:
        return "exit"

    def _cds_register(self, answer, body, view, tables) -> str:
        number = answer.entry.number("detail") if answer.status in (SUCCESS, EXISTS) else "-"
        return f"cds-register {number} {word(names.name_in(body[:16]))} {packets.number(body[16:20])}"

    def _cds_copy(self, answer, body, view, tables) -> str:
        slot = packets.number(body[:2])
        if slot in view.blocks and len(body) - 2 != view.blocks[slot]:
            raise LeftOut("cFE's call takes as many bytes as the block has")
        return f"cds-copy {_block(body)} {digits(body[2:])}"

    def _cds_restore(self, answer, body, view, tables) -> str:
        return f"cds-restore {_block(body)}"

    # The ground.

    def _file(self, name) -> str:
        """The name in cFE's file system for one of a session."""
        if not names.is_name(name):
            raise LeftOut("a file's name is needed")
        return self._files.setdefault(name, f"{FOLDER}{len(self._files) + 1}")

    def _ground(self, piece, answer) -> None:
        name = answer.request
        if name == "Reset":
            self._reset(piece)
            return
        if name == "File":
            made = self._uplink(piece)
        elif name == packets.HOUSEKEEPING:
            made = "housekeeping"
        elif name in {it.name for it in names.named("command").values()}:
            made = self._command(name, answer)
        else:
            raise LeftOut("cFE has a clock of its own" if name == "Time" else "these bytes aren't a command in cFE's layout")
        self.lines.append(f"0 {made}")
        self._is_fresh = False

    def _uplink(self, piece) -> str:
        name = names.name_in(names.field("File", "name").of(piece.body))
        return f"file {self._file(name)} {digits(names.field('File', 'contents').of(piece.body))}"

    def _reset(self, piece) -> None:
        if not self._is_fresh:
            self.lines.append(f"0 reset {piece.body[0]}")
            self._ended.clear()
        if names.words("reset")[piece.body[0]] == "power-on":
            self._own = {}
        self._is_fresh = True

    def _command(self, name, answer) -> str:
        code = next(number for number, it in names.named("command").items() if it.name == name)
        values = {it.name: raw for it, raw in answer.fields()}
        select = packets.number(values["select"]) if "select" in values else "-"
        table = word(names.name_in(values["table"])) if "table" in values else "-"
        file = self._file(names.name_in(values["file"])) if "file" in values else "-"
        return f"command {code} {select} {table} {file}"


MAKERS = {"Register": Writer._register, "Share": Writer._share, "LoadImage": Writer._load, "LoadFile": Writer._load_file,
          "Edit": Writer._edit, "GetInfo": Writer._get_info, "Notify": Writer._notify, "Exit": Writer._exit,
          "CdsRegister": Writer._cds_register, "CdsCopy": Writer._cds_copy, "CdsRestore": Writer._cds_restore}


def _handle(body) -> int | str:
    number = packets.number(body[:2])
    return number if number < MOST_HANDLES else "-"


def _block(body) -> int | str:
    number = packets.number(body[:2])
    return number if number < MOST_BLOCKS else "-"


# The files.

LINES_C = """\
/* cfetbl_calls_lines.c: the calls, commands and files of {sessions}, which `cfetbl cfe-app` wrote. */
#include "cfetbl_calls.h"

static const char *const Apps[] = {{
{apps}}};

static const char *const Lines[] = {{
{lines}    NULL,
}};

const char *CFETBL_CALLS_App(uint32 Number)
{{
    return Number < sizeof(Apps) / sizeof(Apps[0]) ? Apps[Number] : NULL;
}}

const char *CFETBL_CALLS_Line(uint32 Number)
{{
    return Number < sizeof(Lines) / sizeof(Lines[0]) ? Lines[Number] : NULL;
}}
"""
CMAKE = """\
# In apps/cfetbl_calls of a cFS tree.
project(CFETBL_CALLS C)
add_definitions(-DRECORD_DIRECT)
include_directories(fsw/src)
add_cfe_app(cfetbl_calls fsw/src/cfetbl_calls.c fsw/src/cfetbl_calls_lines.c fsw/src/record.c)
"""
README = """\
These applications of cFE make the calls of {sessions}, {calls} in all, and write them with their return codes into calls.log.

1. Copy this folder into the tree of your cFS as apps/cfetbl_calls.
2. Add cfetbl_calls to the applications of a processor in sample_defs/targets.cmake: list(APPEND MISSION_GLOBAL_APPLIST cfetbl_calls)
3. Put the lines of cfe_es_startup.lines into sample_defs/cpu1_cfe_es_startup.scr, before the line that begins with !
4. Build: make SIMULATION=native prep && make && make install
5. Run: cd build/exe/cpu1 && rm -f cf/cfetbl_calls.at && ./core-cpu1 -R PO
{again}6. End it by Ctrl-C once calls.log ends with `log end`, which takes about {seconds} s. It is in build/exe/cpu1.
7. Compare: cfetbl compare --expect known /dev/null calls.log
   and send back what that says, calls.log, the version of your cFE, and what you have changed in its configuration of tables.

Requests that are left out, since cFE can't be asked for them: {left}. left-out.txt names each.
"""
AGAIN = "   Resets of the processor in it: {resets}. cFE ends at each of them: start ./core-cpu1 again, without -R.\n"
STARTUP = "CFE_APP, cfetbl_calls, CFETBL_CALLS_Main, {name}, {priority}, 65536, 0x0, 0;\n"
# Beside the table task, which has 70, these give way.
PRIORITY = 120
# How long a command, an end and a change of applications take, in milliseconds.
COMMAND_TIME, EXIT_TIME, TURN_TIME = 200, 3_000, 5


def cut(line) -> list[str]:
    """A line in pieces that each compiler takes as a string, cut between words."""
    found = []
    while len(line) > LONGEST_LINE:
        place = line.rindex(" ", 0, LONGEST_LINE)
        found.append(line[:place])
        line = "+" + line[place:]
    return [*found, line]


def c_lines(writer) -> list[str]:
    """The lines as elements of an array in C."""
    return [piece for line in writer.lines for piece in cut(line)]


def seconds(writer) -> int:
    """How long it takes in cFE, about."""
    commands = sum(1 for it in writer.lines if it.startswith(("0 command", "0 housekeeping")))
    exits = sum(1 for it in writer.lines if it.endswith(" exit"))
    return (commands * COMMAND_TIME + exits * EXIT_TIME + len(writer.lines) * TURN_TIME) // 1_000 + 5


def contents(writer, sessions) -> dict[str, str]:
    """The files that are made, by their names."""
    resets = sum(1 for it in writer.lines if it.startswith("0 reset"))
    apps = "".join(f'    "{it.decode("latin-1")}",\n' for it in writer.apps)
    lines = "".join(f'    "{it}",\n' for it in c_lines(writer))
    return {
        "fsw/src/cfetbl_calls_lines.c": LINES_C.format(sessions=sessions, apps=apps, lines=lines),
        "CMakeLists.txt": CMAKE,
        "cfe_es_startup.lines": "".join(STARTUP.format(name=it.decode("latin-1"), priority=PRIORITY + number) for number, it in enumerate(writer.apps)),
        "README.txt": README.format(sessions=sessions, calls=writer.calls(), again=AGAIN.format(resets=resets) if resets else "",
                                    seconds=seconds(writer), left=len(writer.left_out)),
        "left-out.txt": "".join(f"{place}: {line}\n    {why}\n" for place, line, why in writer.left_out),
    }


def write(folder, made) -> None:
    """Writes the files, and copies those that are always the same."""
    os.makedirs(os.path.join(folder, "fsw", "src"), exist_ok=True)
    for name, content in made.items():
        with open(os.path.join(folder, name), "w", encoding="utf-8") as file:
            file.write(content)
    for name in SOURCES:
        shutil.copyfile(os.path.join(programs.IN_C, name), os.path.join(folder, "fsw", "src", os.path.basename(name)))
