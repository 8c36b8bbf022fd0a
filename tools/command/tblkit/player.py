"""Plays lines for a comparison: tables with a validation function have a byte more in front, for its verdicts; what was written in
place comes in as an image that tells nobody; and before a session is full, what it has goes on in a further one."""

from collections.abc import Iterator
from typing import Any

from . import files, layouts, names, packets, records, text, verdicts
from .numbers import counted
from .states import Dump, Load
from .tables import POWER_ON, REGISTERED, STOPPED, SUCCESS

(UPDATED,) = layouts.statuses("UPDATED")
IMAGE_ACTIVE = layouts.number_of("event", "image went active")
ADDRESS = ("Get", "Release")
# Files of a comparison's own.
VERDICT_FILE, LOAD_FILE, GONE = "/cfetbl.verdict", "/cfetbl.load", "CFETBL.GONE"
# How many requests are kept free in a session, for what goes on in the next one.
RESERVE = 1_500


class Player:
    """The run in which a log is played, or one run after the other. `open_run` gives a fresh one over the store that is there."""

    def __init__(self, open_run) -> None:
        self._open, self.running = open_run, open_run()
        # By full name: the images that a table told of, and the tables that had images that tell nobody. By handle: what it was told.
        self.news, self.quiet, self.told, self._is_new = {}, set(), {}, False
        # The tables that have a byte more, the files as the log has them, and the files that are in the file store.
        self.judged, self.files, self._there = set(), {}, {}
        # Which session this is, and the files of dumps that are asked for.
        self.sessions, self._dumps = 1, {}

    @property
    def states(self) -> Any:
        return self.running.states

    def table(self, name) -> Any:
        return self.states.tables.get(name)

    def stands(self) -> tuple[Any, dict[str, Any]]:
        """What stands, for `lines`."""
        return self.states.view, self.states.tables

    def lines(self, stood) -> Iterator[str]:
        """What stood: the applications with their handles, and the tables with the sizes that they have in the log."""
        view, tables = stood
        for actor, name in sorted(view.applications.items()):
            yield f"app {actor} {names.quoted(name)} runs; {view.handle_words(actor)}"
        for table in sorted(tables.values(), key=lambda it: it.row):
            yield table._replace(size=table.size - self.front(table.name)).words()

    def front(self, name) -> int:
        """How many bytes a table has in front."""
        return int(name in self.judged)

    def play(self, line) -> Any:
        """The answer to a line; none where the session is over, and where the line is no request."""
        return self.record(text.record_of(line))

    def record(self, content) -> Any:
        last = None
        for last in self.running.ask(content):
            self._follow(last)
        return last

    def _follow(self, answer) -> None:
        view = self.states.view
        if answer.request == "Reset" or answer.status == STOPPED:
            self.news, self.told = {}, {}
            if answer.request == "Reset" and answer.record.body[0] == POWER_ON:
                self.files, self._there = {}, {}
        elif answer.request == "Register" and answer.status in REGISTERED:
            handle = answer.entry.number("detail")
            self.told[handle], name = 0, view.handles[handle].table
            self.news[name] = self.table(name).images
        elif answer.request == "Share" and answer.status == SUCCESS:
            self.told[answer.entry.number("detail")] = 0
        elif answer.request in ADDRESS and answer.status in (SUCCESS, UPDATED) and answer.handle() is not None:
            self._hear(answer)
        for packet in answer.packets:
            if packet.kind == "event" and packet.field("number").value == IMAGE_ACTIVE:
                name = view.rows.get(packet.field("row").value)
                self.news[name] = self.news.get(name, 0) + 1

    def _hear(self, answer) -> None:
        """Whether a Get or a Release was told of an image that is new to its handle."""
        name, handle = answer.handle().table, packets.number(answer.record.body[:2])
        self._is_new = self.told.get(handle, 0) < self.news.get(name, 0)
        if answer.request == "Get":
            self.told[handle] = self.news.get(name, 0)

    def status(self, answer) -> int:
        """The status of the last answer. After images that tell nobody, that of a Get or a Release is known here alone."""
        handle = answer.handle()
        if answer.request in ADDRESS and answer.status in (SUCCESS, UPDATED) and handle is not None and handle.table in self.quiet:
            return int(self._is_new)
        return answer.status

    # Files.

    def uplink(self, name, content) -> Any:
        """Takes a file that the log brings."""
        self.files[name] = content
        return self._put(name, content)

    def _put(self, name, content) -> Any:
        answer = self.record(records.spelling(_request("File"), 0, _padded(name, 64) + content))
        if answer is not None and answer.status == SUCCESS:
            self._there[name] = content
        return answer

    def ready(self, name, verdict=0) -> None:
        """Has a file in the file store as the table that it names needs it, before it is loaded."""
        content = self.files.get(name)
        if content is None:
            return
        if verdicts.table_of(content) in self.judged:
            content = verdicts.file_with_verdict(content, verdict)
        if self._there.get(name) != content:
            self._put(name, content)

    def dumped(self, answer) -> None:
        """Takes the files that a command wrote, and remembers what will be written."""
        fields = {it.name: names.name_in(raw) for it, raw in answer.fields() if it.form == "name"}
        if answer.status == SUCCESS and "table" in fields and not answer.entry.reply:
            self._dumps[names.quoted(fields["table"])] = fields["file"]
        for content in files.split(answer.entry.reply) if answer.status == SUCCESS else ():
            name, table = fields.get("file"), verdicts.table_of(content)
            name = self._dumps.get(table) if name is None else name
            if name is not None:
                self._there[name] = content
                self.files[name] = verdicts.file_without_byte(content) if table in self.judged else content

    # Images.

    def read(self, handle, actor) -> bytes | None:
        """The bytes of the image whose address a handle has, without the byte in front."""
        table = self.table(self.states.view.handles[handle].table)
        answer = self.play(f"app {actor} read {handle} at 0 length {table.size}")
        return None if answer is None else answer.entry.reply[self.front(table.name):]

    def whole(self, table) -> bytes | None:
        """The bytes of the active image of a table, with the byte in front."""
        pinned = next((handle for handle, image in table.pins if image == table.images), None)
        handle = table.handle if pinned is None else pinned
        actor = self.states.view.handles[handle].actor
        if pinned is None and table.pins and table.handle in dict(table.pins):
            return None
        told = dict(self.told)
        if pinned is None:
            self.play(f"app {actor} get {handle}")
        content = self.play(f"app {actor} read {handle} at 0 length {table.size}").entry.reply
        if pinned is None:
            self.play(f"app {actor} release {handle}")
        self.told = told
        return content

    def write(self, name, content) -> None:
        """An image that was written in place: it takes the place of the active one, and tells nobody. A load of the ground that is
        open is opened again."""
        table = self.table(name)
        content = verdicts.ACCEPTED * self.front(name) + content
        load = self._load_lines(table) if table.load else []
        if table.load:
            self.play(f"ground ABORT_LOAD {name}")
        self._replace(table, content)
        for line in load:
            self.play(line)

    def _replace(self, table, content) -> None:
        news, told, view = self.news.get(table.name, 0), dict(self.told), self.states.view
        pins = [(handle, view.handles[handle].actor) for handle, _ in table.pins]
        for handle, actor in pins:
            self.play(f"app {actor} release {handle}")
        how = "edit {} at 0 hex {}" if table.has("dump-only") else "load {} hex {}"
        self.play(f"app {table.owner} {how.format(table.handle, content.hex())}")
        for handle, actor in pins:
            self.play(f"app {actor} get {handle}")
        self.news[table.name], self.told = news, told
        self.quiet.add(table.name)

    def _load_lines(self, table) -> list[str]:
        """The lines that open a table's load again as it is."""
        answer = self.play(f"ground DUMP inactive {table.name} {LOAD_FILE}")
        lines = [f"file {LOAD_FILE} table {table.name} at 0 hex {answer.entry.reply[verdicts.HEADER:].hex()}", f"ground LOAD {LOAD_FILE}"]
        if table.load in (Load.PENDING, Load.VALIDATED, Load.ASKED):
            lines.append(f"ground VALIDATE inactive {table.name}")
        if table.load in (Load.VALIDATED, Load.ASKED) and table.has_function:
            lines.append(f"app {table.owner} validate {table.handle}")
        return lines + ([f"ground ACTIVATE {table.name}"] if table.load is Load.ASKED else [])

    # A validation function's verdict.

    def judge(self, name, verdict) -> None:
        """Has the program's function give a verdict on the load of a table, before it is asked."""
        if name in self.judged and self.table(name).load is Load.PENDING:
            self.play(f"file {VERDICT_FILE} table {name} at 0 hex {verdicts.verdict_byte(verdict).hex()}")
            self.play(f"ground LOAD {VERDICT_FILE}")

    # Further sessions.

    def is_full(self) -> bool:
        return self.running.count > records.MOST_RECORDS - RESERVE

    def go_on(self) -> dict[int, int]:
        """Goes on in a further session with what this one has, and gives the handles there by those before."""
        view, tables = self.states.view, sorted(self.states.tables.values(), key=lambda it: it.row)
        images = {it.name: self._images(it) for it in tables}
        loads = {it.name: self._load_lines(it) for it in tables if it.load}
        told, news = dict(self.told), dict(self.news)
        self.running.finish()
        self.running, self._there = self._open(), {}
        self.sessions += 1
        for actor, name in sorted(view.applications.items()):
            self.play(f"app {actor} start {names.quoted(name)}")
        handles = self._handles(view, tables)
        for table in tables:
            self._fill(table, images[table.name], loads.get(table.name, []), handles, view)
        self.quiet |= {it.name for it in tables}
        self.news, self.told = news, {handles[it]: number for it, number in told.items() if it in handles}
        return handles

    def _images(self, table) -> list[bytes]:
        """The images of a table that are still there: the active one, and the one before if a handle has its address."""
        if not table.images:
            return []
        before = next((handle for handle, image in table.pins if image != table.images), None)
        found = [] if before is None else [self._pinned(table, before)]
        whole = self.whole(table)
        return [*found, whole if whole is not None else self._last_by_load(table)]

    def _pinned(self, table, handle) -> bytes:
        return self.play(f"app {self.states.view.handles[handle].actor} read {handle} at 0 length {table.size}").entry.reply

    def _last_by_load(self, table) -> bytes:
        """The active image where the owner's handle has the address of the one before."""
        answer = self.play(f"ground DUMP active {table.name} {LOAD_FILE}")
        return answer.entry.reply[verdicts.HEADER:]

    def _handles(self, view, tables) -> dict[int, int]:
        """Registers and shares the tables again. A handle whose table is gone gets such a one again."""
        handles = {}
        for number, it in sorted(view.handles.items()):
            if it.table is None:
                handles[number] = self._gone(it.actor)
        for table in tables:
            options = f"options 0x{table.options:04X}" + (f" validator {table.validator}" if table.has_function else "")
            short = names.quoted(_raw(table.name)[len(view.applications[table.owner]) + 1:])
            handles[table.handle] = self._detail(f"app {table.owner} register {short} size {table.size} {options}")
        for number, it in sorted(view.handles.items()):
            if it.table is not None and not it.is_registration:
                handles[number] = self._detail(f"app {it.actor} share {it.table}")
        return handles

    def _detail(self, line) -> int:
        return self.play(line).entry.number("detail")

    def _gone(self, actor) -> int:
        first = self._detail(f"app {actor} register {GONE} size 1")
        full = names.quoted(self.states.view.applications[actor] + b"." + GONE.encode())
        shared = self._detail(f"app {actor} share {full}")
        self.play(f"app {actor} unregister {first}")
        return shared

    def _fill(self, table, images, load, handles, view) -> None:
        """The images of a table, the addresses that handles have, and what the ground has asked for."""
        number, pins = handles[table.handle], list(table.pins)
        for at, content in enumerate(images):
            how = "edit {} at 0 hex {}" if table.has("dump-only") else "load {} hex {}"
            self.play(f"app {table.owner} {how.format(number, content.hex())}")
            is_last = at == len(images) - 1
            for handle, image in pins:
                if (image == table.images) == is_last:
                    self.play(f"app {view.handles[handle].actor} get {handles[handle]}")
        for line in load:
            self.play(line.replace(f"validate {table.handle}", f"validate {number}"))
        if table.is_active_pending:
            self.play(f"ground VALIDATE active {table.name}")
        if table.dump:
            file = names.quoted(self._dumps.get(table.name, LOAD_FILE.encode()))
            self.play(f"ground DUMP active {table.name} {file}")
        if table.dump is Dump.FILLED:
            self.play(f"app {table.owner} dump-to-buffer {number}")

    def words(self) -> str:
        """How many sessions it took, where it was more than one."""
        return "" if self.sessions == 1 else f", in {counted(self.sessions, 'session')}"


def _request(name) -> names.Request:
    return next(it for it in names.requests().values() if it.name == name)


def _padded(name, width) -> bytes:
    return name.ljust(width, b"\0")


def _raw(quoted) -> bytes:
    """The bytes of a name as a word."""
    return text.Words(quoted).name("a name", 64)
