"""What the tools follow of each table, against the registry records that the service sends of it."""
import glob
import io
import os
import unittest

from tblkit import names, records, show, states, transcript

from . import recorded

EXAMPLES = sorted(glob.glob(os.path.join(recorded.TOP, "sessions", "*.session")))
LONG = 60_000


def registry_records(answer):
    """The registry records in an answer, as a GetInfo, a SEND_REGISTRY and a DUMP_REGISTRY give them."""
    told = [it.body for it in answer.packets if it.kind == "registry"]
    return told + [fields for kind, fields in answer.reply() if kind == "registry"]


def bits_of(table):
    """The state of a registry record, as what was followed gives it."""
    is_set = {"loaded": table.images > 0, "activation asked": table.load is states.Load.ASKED, "dump only": table.has("dump-only"),
              "double buffered": table.has("double"), "critical": table.has("critical"), "load open": table.load is not None}
    return sum(bit for bit, word in names.bits("registry").items() if is_set[word])


def pending_status(table):
    """What a GetStatus of the table is answered with."""
    if table.is_active_pending or table.load is states.Load.PENDING:
        return 4
    return 3 if table.load is states.Load.ASKED else 5 if table.dump else 0


def least_lock(table):
    """The least handle that locks the table."""
    return min(handle for handle, image in table.pins if not table.has("double") or image != table.images)


class Followed(unittest.TestCase):
    def check_record(self, table, fields, view):
        said = {it.name: it.value for it in fields}
        self.assertEqual(
            [table.size, table.images, *table.updated, bits_of(table), table.validator, names.quoted(view.applications[table.owner])],
            [said["size"], said["images"], said["seconds of the last update"], said["subseconds of the last update"], said["state"],
             said["validator"], names.quoted(said["owner"].encode("latin-1"))])
        self.assertEqual(table.file, said["last file loaded"] and names.quoted(said["last file loaded"].encode("latin-1")))

    def check_call(self, answer, before):
        """What a call's answer tells of the pins of its handle, and of what is pending."""
        handle = answer.handle()
        table = before.get(handle.table) if handle and handle.actor == answer.actor else None
        if table is None:
            return
        number = int.from_bytes(answer.record.body[:2], "big")
        is_pinned = number in dict(table.pins)
        if answer.request == "GetStatus":
            self.assertEqual(answer.status, pending_status(table))
        elif answer.status == 9:
            self.assertEqual(answer.entry.number("detail"), least_lock(table))
        elif answer.request in ("Get", "Read", "Release"):
            wanted = {"Get": is_pinned, "Read": not is_pinned, "Release": not is_pinned}[answer.request]
            self.assertEqual(answer.status in (59, 61), wanted)

    def check_session(self, session, output):
        """How many registry records were compared."""
        followed, count = states.States(), 0
        for part in show.answers(transcript.parts(io.BytesIO(output)), records.Index(io.BytesIO(session))):
            if not isinstance(part, show.Answer):
                continue
            self.check_call(part, followed.tables)
            followed.follow(part)
            for fields in registry_records(part):
                name = names.quoted(next(it.value for it in fields if it.name == "table").encode("latin-1"))
                self.check_record(followed.tables[name], fields, followed.view)
                count += 1
        return count

    def test_examples(self):
        for name in EXAMPLES:
            with self.subTest(name), open(name, "rb") as session, open(name[:-len("session")] + "transcript", "rb") as output:
                self.check_session(session.read(), output.read())

    def test_recorded_sessions(self):
        for pack in recorded.packs():
            for case in recorded.sessions(pack):
                if case.decoded and len(case.output) <= LONG:
                    with self.subTest(pack=pack, case=case.name):
                        self.check_session(case.session, case.output)


if __name__ == "__main__":
    unittest.main()
