"""A thousand definitions at random, against a C program that prints where each field is and what it holds; fields that are set,
against the changed source; and their files by way of the program."""
import io
import struct
import subprocess

from tblkit import programs, text, transcript
from tblkit.fields import definitions, loads, objects
from tblkit.fields.layout import Members

from . import compiled
from .amounts import amount
from .definitions_at_random import FLOATS, Table, source

TABLES, BATCHES = 40, amount(25, 6)


def read(path, tables):
    """The definitions of tables in an object, which has no CFE_TBL_FILEDEF."""
    def defined(of):
        variables = definitions.Variables(of)
        return {it.name: _definition(path, it.name, *variables.layout_of(it.name, Members())) for it in tables}

    return objects.using(path, objects.read(path), defined)


def _definition(path, name, layout, image):
    return definitions.Definition(path, name, f"APP.{name}", b"At random", f"{name}.tbl", layout, image)


def printed(program):
    """What the program prints: for each path the offset and size, which are `-` for a bit field, and the value."""
    lines = subprocess.run([program], capture_output=True, text=True, check=True).stdout.splitlines()
    return {path: more for path, *more in (line.split(" ") for line in lines)}


@compiled.needs_clang
class AtRandom(compiled.InFolder):
    def test_against_a_program_in_c(self):
        for batch in range(BATCHES):
            tables = [Table(f"T{at}", 1000 * batch + at) for at in range(TABLES)]
            compiler = (compiled.HOST, compiled.CLANG)[batch % 2]
            host = self.check_host(tables, compiler)
            there = self.check_target(tables, host, compiled.targets()[batch % len(compiled.targets())])
            self.check_program(there if batch % 2 else host)

    def check_host(self, tables, compiler):
        """Each field where the compiler of this machine has it, with its value; and a set beside the changed source."""
        path = compiled.made(source(tables, is_program=True), self.folder, "host", compiler=compiler)
        subprocess.run([compiler, path, "-o", self.path("program")], check=True)
        found, told = read(path, tables), printed(self.path("program"))
        for table in tables:
            self.check_fields(table, found[table.name], told)
        self.check_sets(tables, found, compiled.made(source(tables, True), self.folder, "changed", compiler=compiler))
        return found

    def check_fields(self, table, definition, told):
        layout, part = definition.layout, loads.whole(definition)
        self.assertEqual(str(layout.size), told[table.name][1], table.text())
        self.assertEqual(list(layout.by_name), [it.path for it in table.leaves], table.text())
        self.assertEqual(sum(it.bits for it in (*layout.fields, *layout.padding)), 8 * layout.size, table.text())
        for leaf in table.leaves:
            field, (offset, size, value) = layout.by_name[leaf.path], told[f"{table.name}.{leaf.path}"]
            where = f"{leaf.path} of {table.text()}"
            if leaf.bits is None:
                self.assertEqual((field.place, field.bits), (8 * int(offset), 8 * int(size)), where)
            else:
                self.assertEqual(field.bits, leaf.bits, where)
            self.check_value(leaf, part.text_of(field), value, where)

    def check_value(self, leaf, shown, value, where):
        """A value as it is shown, beside what the program says of it and what the source has."""
        if leaf.type == "char":
            self.assertEqual((shown, bytes.fromhex(value).rstrip(b"\0").decode()), (leaf.text(), leaf.value), where)
        elif leaf.type in FLOATS:
            self.assertEqual(struct.pack(f"<{FLOATS[leaf.type]}", float(shown)).hex().upper(), value, where)
            self.assertEqual(value, leaf.shown(), where)
        else:
            self.assertEqual((shown, value), (leaf.text(), leaf.shown()), where)

    def check_sets(self, tables, found, path):
        changed = read(path, tables)
        for table in tables:
            made = self.set(found[table.name], table)
            self.assertEqual(made.part.content, changed[table.name].image, f"{table.changed} of {table.text()}")
            part = loads.changed(found[table.name], loads.whole(found[table.name]), [f"{table.changed.path}={table.changed.text()}"], False).part
            self.assertEqual(loads.over(loads.whole(found[table.name]), part).content, changed[table.name].image, table.text())

    @staticmethod
    def set(definition, table):
        return loads.changed(definition, loads.whole(definition), [f"{table.changed.path}={table.changed.text()}"], True)

    def check_target(self, tables, host, target):
        """The same on a target: the dump of the host, and a set beside the changed source."""
        found = read(compiled.made(source(tables), self.folder, "target", target=target), tables)
        for table in tables:
            there, here = (list(loads.dump(it[table.name], loads.whole(it[table.name]))) for it in (found, host))
            self.assertEqual(there, here, f"{target}: {table.text()}")
        self.check_sets(tables, found, compiled.made(source(tables, True), self.folder, "other", target=target))
        return found

    def check_program(self, found):
        """Each file is loaded by the program and goes active, and what comes back by DUMP has no field that differs."""
        lines = ["app 1 start APP"]
        for handle, (name, definition) in enumerate(found.items()):
            self.write(f"{name}.tbl", loads.table_file(definition, loads.whole(definition)))
            lines += [f"app 1 register {name} size {definition.layout.size}", f"file /f from {name}.tbl", "ground LOAD /f",
                      f"ground VALIDATE inactive APP.{name}", f"ground ACTIVATE APP.{name}", f"app 1 manage {handle}", f"app 1 update {handle}",
                      f"ground DUMP active APP.{name} /d"]
        entries = self.played(lines)
        dumps = [it.reply for it, line in zip(entries, lines) if line.startswith("ground DUMP")]
        self.assertEqual(len(dumps), len(found))
        for definition, dumped in zip(found.values(), dumps):
            part = loads.part_of(definition, "/d", dumped)
            self.assertEqual(loads.difference(definition, loads.whole(definition), part), loads.Difference((), (), 0), definition.table)
            self.assertEqual(part, loads.whole(definition))

    def played(self, lines):
        """The entries of a session that is played in a folder of its own."""
        session = b"".join(text.record_of(line, self.folder) for line in lines)
        done = subprocess.run([programs.found(), "play"], input=session, stdout=subprocess.PIPE, cwd=self.folder, check=True)
        return [it for it in transcript.parts(io.BytesIO(done.stdout)) if isinstance(it, transcript.Entry)]
