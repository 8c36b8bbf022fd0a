"""Compares the calls of a log with their answers here, one after the other."""
import io
from collections import Counter
from dataclasses import replace
from typing import Any

from . import calls, differences, layouts, names, packets, records, text, verdicts
from .numbers import counted, noun
from .player import Player
from .states import Dump, Load
from .tables import SUCCESS

PINNED, NOT_PINNED, NOT_LOADED, NOT_VALIDATED = layouts.statuses("ALREADY_PINNED", "NOT_PINNED", "NEVER_LOADED", "NOT_VALIDATED")
LOCAL_WARNING = 31
# What GetInfo tells, by the words of the log: bits of the state of a registry record.
STATE = {"loaded": "loaded", "dump-only": "dump only", "double": "double buffered", "critical": "critical"}
LONGEST_SHORT_NAME = layouts.number("bytes of a short name")
# What came before without leaving a table in another state.
SAME_STATE = ("modified",)


class Difference(Exception):
    """A call was answered otherwise here: what came here, and which known difference it is, if it is one."""

    def __init__(self, reason, which=None) -> None:
        super().__init__(reason)
        self.which = which


class Comparison:
    """Plays the lines of a log, and compares the calls. `count` is how many there were, `passed` how many of them were known
    differences by their numbers, and `left` how many weren't compared, since their table was answered otherwise before."""

    def __init__(self, open_run, passes_known=False) -> None:
        self.player, self._translation, self._passes = Player(open_run), calls.Translation(), passes_known
        self.count, self.passed, self.left, self._stood = 0, Counter(), 0, self.player.stands()
        # By table: what came before that lets cFE answer otherwise, with the lines by which the service does the same; and the tables
        # that are in another state there.
        self._suspects, self._gone = {}, {}
        self._verdicts, self.is_marked, self.is_ended = {}, False, False
        # The numbers of applications here by those of the log. A number whose application ended isn't used again, since whoever starts
        # under it has no validation function.
        self._actors, self._spent = {}, set()

    @property
    def before(self) -> list[str]:
        """What stood before the last call."""
        return list(self.player.lines(self._stood))

    # Lines.

    def take(self, line, folder) -> None:
        """Plays a line. A call that is answered otherwise here is a Difference."""
        found = calls.read(line)
        if found is not None and not isinstance(found, calls.Mark):
            found = replace(found, actor=self._actors.get(found.actor, found.actor))
        if self.player.is_full():
            self._translation.moved(self.player.go_on())
        if found is None:
            self._play_text(text.record_of(line, folder))
        elif isinstance(found, calls.Verdict):
            self._verdicts.setdefault(found.actor, []).append(found.verdict)
        elif isinstance(found, calls.Written):
            self._write(found)
        elif isinstance(found, calls.Mark):
            self.is_marked, self.is_ended = True, found.is_end
        else:
            self.count += 1
            self._stood = self.player.stands()
            self._call(found)
            self._verdicts.pop(found.actor, None)

    def play(self, session) -> None:
        """Plays what came before the log."""
        for piece in records.pieces(session):
            self._play_text(piece.content)

    def words(self) -> str:
        """What came of the whole log."""
        passed = ", ".join(f"{number} ({noun(count, 'once', f'{count} times')})" for number, count in sorted(self.passed.items()))
        return (f"no difference: {counted(self.count, 'call')}" + (f", but for known ones: {passed}" if passed else "")
                + (f"; {self.left} of them weren't compared, since their table is in another state there" if self.left else "")
                + self.player.words())

    def _play_text(self, content) -> None:
        """Plays a line of session text, or several records."""
        for piece in records.pieces(io.BytesIO(content)):
            if not piece.fault and piece.request.name == "File":
                self.player.uplink(names.name_in(names.field("File", "name").of(piece.body)), names.field("File", "contents").of(piece.body))
                continue
            if not piece.fault and packets.command_name(piece.body) == "LOAD":
                self.player.ready(names.name_in(piece.body[packets.COMMAND_HEADER:]))
            answer = self.player.record(piece.content if piece.fault else self._by_number_here(piece))
            if answer is not None and answer.record is not None:
                self._after_text(answer)

    def _by_number_here(self, piece) -> bytes:
        """A record with the number that its application has here."""
        if piece.request.name == "Start":
            self._actors[piece.actor] = self._number_for(self._actors.get(piece.actor, piece.actor), names.name_in(piece.body))
        number = self._actors.get(piece.actor, piece.actor)
        if piece.request.name == "Exit":
            self._spent.add(number)
        return records.spelling(piece.request, number, piece.body)

    def _number_for(self, number, name) -> int:
        """The number of an application that starts: its own if it runs on after a reset, and one that isn't used if another has it."""
        running = self.player.states.view.applications
        if running.get(number) == name or (number not in running and number not in self._spent and name not in running.values()):
            return number
        own = next((it for it, other in running.items() if other == name), None)
        used = {*running, *self._spent, *self._actors, *self._actors.values()}
        return own if own is not None else max(set(records.APPLICATIONS) - used, default=number)

    def _after_text(self, answer) -> None:
        """What a command brings about that cFE answers otherwise."""
        if answer.request in ("DUMP", "DUMP_REGISTRY", packets.HOUSEKEEPING):
            self.player.dumped(answer)
        elif answer.request == "Reset":
            self._suspects, self._gone = {}, {}
        elif answer.request == "ACTIVATE" and answer.status == NOT_VALIDATED:
            name = names.quoted(next(names.name_in(raw) for it, raw in answer.fields() if it.name == "table"))
            table = self.player.table(name)
            if table.load is Load.OPEN and not table.has_function:
                self._suspect(name, "unvalidated", f"ground VALIDATE inactive {name}", f"ground ACTIVATE {name}")

    def _suspect(self, name, reason, *lines) -> None:
        self._suspects.setdefault(name, {})[reason] = lines

    def _write(self, written) -> None:
        """What was written in place, unless it was written into the image before the last one."""
        handle = self._translation.handle(written.handle)
        given = self.player.states.view.handles.get(handle)
        table = self.player.table(given.table) if given is not None and given.table else None
        if table is not None and (handle, table.images) in table.pins and len(written.content) == table.size - self.player.front(table.name):
            self.player.write(table.name, written.content)

    # Calls.

    def _call(self, call) -> None:
        lines = self._translation.lines(call)
        name = self._name(call, lines[0])
        if name in self._gone and not call.name.startswith("CFE_TBL_Register"):
            self.left += 1
            return
        try:
            self._compare(call, lines)
        except Difference as other:
            self._otherwise(call, lines, name, other)

    def _otherwise(self, call, lines, name, other) -> None:
        """A call was answered otherwise: because of what came before, if that is so, or as a known difference."""
        which = other.which or self._because_of(call, lines, name)
        if which is None:
            raise other
        if not self._passes:
            raise Difference(str(other), which) from None
        self.passed[which.number] += 1

    def _because_of(self, call, lines, name) -> Any:
        """The known difference that came before and lets cFE answer so. If the service answers so once it has done the same, all goes on,
        and else the table is in another state there."""
        for reason, done in self._suspects.get(name, {}).items():
            which = differences.since(reason, call.code)
            if which is None:
                continue
            del self._suspects[name][reason]
            if self._passes and not self._does_the_same(call, lines, done) and reason not in SAME_STATE:
                self._gone[name] = reason
            return which
        return None

    def _does_the_same(self, call, lines, done) -> bool:
        """Whether the service answers a call as cFE does, once it has played lines."""
        for line in done:
            self.player.play(line)
        try:
            if done:
                self._compare(call, lines)
        except Difference:
            return False
        return bool(done)

    def _name(self, call, line) -> str | None:
        """The full name of the table that a call is about, or None."""
        words = line.split(maxsplit=4)
        if call.name == "CFE_TBL_Register":
            owner = self.player.states.view.applications.get(call.actor, b"")
            return names.quoted(owner + b"." + text.Words(line).raw(3))
        if call.name in ("CFE_TBL_Share", "CFE_TBL_GetInfo"):
            return names.quoted(text.Words(line).raw(3))
        given = self.player.states.view.handles.get(int(words[3])) if call.name.startswith("CFE_TBL") else None
        return given.table if given else None

    def _compare(self, call, lines) -> None:
        answers = [self._made(call, line) for line in lines]
        if call.name in ("CFE_TBL_GetAddresses", "CFE_TBL_ReleaseAddresses"):
            self._compare_several(call, lines, answers)
            return
        answer, line = answers[0], lines[0]
        self._translation.gave_handle(call, answer)
        which = self._compare_code(call, answer, line)
        self._compare_rest(call, answer, line)
        self._remember(call, answer, line)
        if which is not None:
            raise Difference(self._said(line, answer), which)

    def _made(self, call, line) -> Any:
        """The answer to a line of a call. A Get by a handle that has an address is made as cFE makes it, once it was refused."""
        self._prepare(call, line)
        content = text.record_of(line)
        answer = self.player.record(self._with_verdict_byte(call, line, content))
        if answer is None:
            raise Difference(f"{line}, and the session is over here")
        return answer

    def _prepare(self, call, line) -> None:
        """What has to come before a call: files in the file store, and what the validation function is to say."""
        words = line.split(maxsplit=4)
        verdict = self._verdict(call)
        if words[2] == "load-file":
            self._ready_file(call, text.Words(line).raw(4), words[3], verdict)
        elif words[2] in ("validate", "manage"):
            given = self.player.states.view.handles.get(int(words[3]))
            if given is not None and given.table and given.is_registration:
                self.player.judge(given.table, verdict)

    def _ready_file(self, call, file, handle, verdict) -> None:
        """A file that begins inside the table has no byte for a verdict, so it goes in as a whole image if that isn't 0."""
        content = self.player.files.get(file)
        given = self.player.states.view.handles.get(int(handle))
        name = given.table if given else None
        if verdict and content and name in self.player.judged and verdicts.table_of(content) == name and self.player.table(name).images:
            self.player.files[file] = self._whole_file(self.player.table(name), content)
        self.player.ready(file, verdict)
        if content is not None:
            self.player.files[file] = content

    def _whole_file(self, table, content) -> bytes | None:
        found = verdicts.files.read_table_file(content)
        whole = self.player.whole(table)
        if found is None or whole is None or found[0]["offset"] == 0:
            return content
        image, at = bytearray(whole[1:]), found[0]["offset"]
        if at + len(found[1]) > len(image) or len(found[1]) != found[0]["image bytes"] or not found[1]:
            return content
        image[at:at + len(found[1])] = found[1]
        return verdicts.files.table_file(bytes(image), found[0] | {"offset": 0, "image bytes": len(image)})

    def _verdict(self, call) -> int:
        """What the validation function said inside a call: the last verdict of the log, and else 0, or for a load that failed by a
        return code that cFE doesn't have, that code."""
        told = self._verdicts.get(call.actor)
        if told:
            return told[-1]
        return int(call.name == "CFE_TBL_Load" and call.code not in differences.codes() and call.code.startswith("0x"))

    def _with_verdict_byte(self, call, line, content) -> bytes:
        """The record of a line, with the byte in front for a table that has it, and a registration with one byte more."""
        player, piece = self.player, records.Piece(0, content)
        if piece.request.name == "Register":
            return self._registration(call, line, piece)
        if piece.request.name == "LoadImage":
            given = player.states.view.handles.get(packets.number(piece.body[:2]))
            if given is not None and given.table in player.judged:
                body = piece.body[:2] + verdicts.verdict_byte(self._verdict(call)) + piece.body[2:]
                return records.spelling(piece.request, piece.actor, body)
        return content

    def _registration(self, call, line, piece) -> bytes:
        fields = {it.name: it.of(piece.body) for it in names.fields("Register")}
        size, name = packets.number(fields["size"]), self._name(call, line)
        # A critical table has the byte in any case, so that its block is found again with a function or without.
        has_byte = fields["validator"] != b"\xff" or "critical" in names.shown("options", fields["options"])
        judged = self.player.judged
        if name not in self.player.states.tables:
            judged.discard(name)
            self._gone.pop(name, None)
            self._suspects.pop(name, None)
            if has_byte and 0 < size <= verdicts.MOST:
                judged.add(name)
        if name not in judged or size == 0:
            return piece.content
        at = names.field("Register", "size").place
        return records.spelling(piece.request, piece.actor, piece.body[:at] + (size + 1).to_bytes(4, "big") + piece.body[at + 4:])

    # Answers.

    def _said(self, line, answer) -> str:
        code = self._code(answer)
        return f"{line} -> {answer.status_words()}, " + (f"which is {code} of cFE" if code else "for which cFE has no return code")

    def _code(self, answer) -> str | None:
        """cFE's return code for an answer."""
        status = self.player.status(answer)
        return names.return_codes()[status] if status != answer.status else differences.return_code(answer)

    def _compare_code(self, call, answer, line) -> Any:
        """Compares the return codes, and gives the known difference that they are, if they are one."""
        if call.name == calls.MODIFIED and answer.status <= LOCAL_WARNING:
            if call.code != "CFE_SUCCESS":
                raise Difference(f"{line}: CFE_SUCCESS of cFE")
            return None
        code = self._code(answer)
        if call.code == code and not (answer.request == "Get" and answer.status == PINNED):
            return None
        which = differences.of(answer, call.code, lambda condition: self._holds(condition, line))
        if which is None:
            raise Difference(self._said(line, answer))
        return which

    def _holds(self, condition, line) -> bool:
        words = line.split(maxsplit=4)
        if condition == "16 bytes":
            return len(text.Words(line).raw(3)) == LONGEST_SHORT_NAME
        given = self.player.states.view.handles.get(int(words[3]))
        table = self.player.table(given.table) if given and given.table else None
        return condition == "filled" and table is not None and table.dump is Dump.FILLED

    def _compare_rest(self, call, answer, line) -> None:
        """Compares bytes and what GetInfo tells."""
        if answer.request == "Get" and answer.status == PINNED and call.images:
            handle = packets.number(answer.record.body[:2])
            self.player.play(f"app {call.actor} release {handle}")
            answer = self.player.play(line)
        if call.images and call.images[0] is not None and call.name != calls.MODIFIED:
            self._compare_bytes(call.images[0], answer, line)
        if call.name == "CFE_TBL_GetInfo" and call.gave:
            self._compare_info(call, answer, line)

    def _compare_bytes(self, there, answer, line) -> None:
        if answer.request == "CdsRestore":
            here = answer.entry.reply
        elif answer.request == "Get" and answer.status <= LOCAL_WARNING:
            here = self.player.read(packets.number(answer.record.body[:2]), answer.actor)
        else:
            return
        if there != here:
            raise Difference(f"{line} -> {answer.status_words()}, with the bytes {here.hex().upper() or 'empty'}")

    def _compare_info(self, call, answer, line) -> None:
        if answer.status != SUCCESS:
            return
        fields = {it.name: it for _, listed in answer.reply() for it in listed}
        name = names.quoted(text.Words(line).raw(3))
        here = {"size": str(fields["size"].value - self.player.front(name))}
        here |= {word: str(int(bit in fields["state"].words.split(" and "))) for word, bit in STATE.items()}
        other = [f"{word} {value}" for word, value in here.items() if call.gave.get(word, value) != value]
        if other:
            raise Difference(f"{line} -> {answer.status_words()}, with {', '.join(other)}")

    def _compare_several(self, call, lines, answers) -> None:
        """Several addresses at once: the return code is the first that isn't CFE_SUCCESS."""
        found, which = [], None
        images = call.images + (None,) * len(lines)
        for line, answer, image in zip(lines, answers, images):
            alike = calls.Call(call.actor, call.name, call.arguments, call.code, {}, (image,) if image is not None else ())
            code, which = self._code_of_several(alike, answer, line, which)
            found.append(code)
            self._compare_rest(alike, answer, line)
        code = next((it for it in found if it != "CFE_SUCCESS"), "CFE_SUCCESS")
        if code != call.code:
            raise Difference(f"{lines[0]} and so on, which is {code} of cFE")
        if which is not None:
            raise Difference(self._said(lines[0], answers[0]), which)

    def _code_of_several(self, call, answer, line, which) -> tuple[str | None, Any]:
        code = self._code(answer)
        for there in ("CFE_SUCCESS", "CFE_TBL_INFO_UPDATED"):
            found = differences.of(answer, there, lambda condition: self._holds(condition, line))
            if found is not None and answer.status in (PINNED, NOT_PINNED):
                return there if call.code == there else "CFE_SUCCESS", found
        return code, which

    def _remember(self, call, answer, line) -> None:
        """What a call brings about that cFE answers otherwise later, and what was written in place."""
        handle = answer.handle()
        name = handle.table if handle else None
        if answer.request == "Get" and answer.status == NOT_LOADED:
            self._suspect(name, "unloaded")
        elif answer.request == "Unregister" and answer.status == SUCCESS and not handle.is_registration:
            table = self.player.table(name) if name else None
            if table is not None and table.owner == call.actor:
                self._suspect(name, "returned")
        elif call.name == calls.MODIFIED and answer.status <= LOCAL_WARNING and name:
            self._modified(call, answer, name)
        elif answer.request == "Get" and answer.status <= LOCAL_WARNING:
            self._suspects.get(name, {}).pop("modified", None)

    def _modified(self, call, answer, name) -> None:
        """All other handles of the table are told of what was written in place."""
        handle = packets.number(answer.record.body[:2])
        if call.images and call.images[0] is not None and len(call.images[0]) == answer.handle().size - self.player.front(name):
            self.player.write(name, call.images[0])
            self.player.news[name] += 1
            self.player.told[handle] += 1
            self._suspect(name, "modified")
