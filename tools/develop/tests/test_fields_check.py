"""Images in the layout of another object, and judged by an application's own validation function."""
import os
import re
import subprocess

from tblkit.fields import convert, definitions, loads
from tblkit.fields.wrong import Wrong

from . import compiled, recorded
from .test_commands import call
from .test_fields_targets import MEMBERS, text_of

CHECKER = os.path.join(recorded.TOP, "c", "examples", "checker")
FUNCTIONS = """#include "cfetbl_table.h"
int32 CFE_EVS_SendEventWithAppID(uint16 EventID, uint16 EventType, uint32 AppID, const char *Spec, ...);
int32 CFE_ES_WriteToSysLog(const char *SpecStringPtr, ...);
void OS_printf(const char *String, ...);
extern int32 CFE_SB_NotThere(void);
int printf(const char *, ...);
int32 Accepts(void *At) { return At == 0; }
int32 Rejects(void *At) { (void)At; return (CFE_Status_t)0xcf000001; }
int32 Positive(void *At) { (void)At; return 5; }
int32 Tells(void *At)
{
    printf("not an event\\n");
    CFE_EVS_SendEvent(7, CFE_EVS_EventType_CRITICAL, "first %u, %s, %.1f", (unsigned)*(uint32 *)At, "text", 2.5);
    CFE_EVS_SendEventWithAppID(8, CFE_EVS_EventType_DEBUG, 3, "by %d", 4);
    CFE_ES_WriteToSysLog("line %d\\n", 5);
    OS_printf("printed\\n");
    return 0;
}
int32 Crashes(void *At) { return *(volatile int *)((char *)At - (uintptr_t)At); }
int32 Loops(void *At) { for (;;) { (void)At; } }
int32 Calls(void *At) { (void)At; return CFE_SB_NotThere(); }
"""
PAIR = """#include "cfetbl_table.h"
struct { uint32 a; union { uint16 b; uint8 c[2]; } u; } Pair = {7, {0x0102}};
CFE_TBL_FILEDEF(Pair, APP.Pair, d, f)
"""


@compiled.needs_clang
class Converted(compiled.InFolder):
    def wanted(self, source):
        return definitions.read(compiled.made(source, self.folder, "host"), MEMBERS)

    def check(self, source, target, host):
        there = definitions.read(compiled.made(source, self.folder, "there", target=target), MEMBERS)
        self.assertEqual(convert.convert(there.image, there, host), host.image, target)
        self.assertEqual(convert.convert(host.image, host, there), there.image, target)

    def test_each_target(self):
        """From each target's layout to that of this machine, and back; without bit fields from one byte order to the other."""
        source = text_of("fields.c")
        plain = re.sub(r"^ {4}\w+ (\w+ )?: \d+;\n", "", source, flags=re.M)
        plain = re.sub(r"(HIGH, 77.5f|MIDDLE, 0.1f|LOW, -0.0f), [^}]*", r"\1", plain)
        host, plain_host = self.wanted(source), definitions.read(compiled.made(plain, self.folder, "plain"), MEMBERS)
        for target in compiled.targets():
            with self.subTest(target):
                there = definitions.read(compiled.made(source, self.folder, "there", target=target), MEMBERS)
                if there.order == host.order:
                    self.check(source, target, host)
                else:
                    with self.assertRaises(Wrong) as wrong:
                        convert.convert(there.image, there, host)
                    self.assertEqual(str(wrong.exception), "Point[0].Low: a bit field isn't carried from one byte order to the other")
                    self.check(plain, target, plain_host)

    def test_what_is_not_carried(self):
        there = compiled.made(PAIR, self.folder, "there", target=compiled.POWERPC)
        for source, wanted in (
                (PAIR, "u: a union isn't carried from one byte order to the other unless --member chooses one of its members"),
                (PAIR.replace("uint32 a", "uint32 other"), f"a: {there} has this field, and {self.path('host.o')} hasn't"),
                (PAIR.replace("uint32 a", "float a"), "a: it is uint32 of 4 bytes in one object, and float of 4 in the other"),
                (PAIR.replace("APP.Pair", "APP.Other"), f"{self.path('host.o')}: it defines the table APP.Other, and {there} APP.Pair"),
                (PAIR.replace("uint32 a", "uint8 a"), "a: 300 is out of range: expected a number from 0 to 255, of the type uint8")):
            with self.subTest(wanted):
                host = definitions.read(compiled.made(source, self.folder, "host"))
                image = loads.changed(definitions.read(there), loads.whole(definitions.read(there)), ["a=300"], True).part.content
                with self.assertRaises(Wrong) as wrong:
                    convert.convert(image, definitions.read(there), host)
                self.assertEqual(str(wrong.exception), wanted)

    def test_a_chosen_member(self):
        for member in ("u=b", "u=c"):
            host = definitions.read(compiled.made(PAIR, self.folder, "host"), (member,))
            there = definitions.read(compiled.made(PAIR, self.folder, "there", target=compiled.POWERPC), (member,))
            made = convert.convert(there.image, there, host)
            self.assertEqual(list(loads.dump(host, loads.Part(0, made))), list(loads.dump(there, loads.whole(there))))


@compiled.needs_clang
class Judged(compiled.InFolder):
    @classmethod
    def setUpClass(cls):
        super().setUpClass()
        cls.there = compiled.made(text_of(f"{CHECKER}/limits.c"), cls.folder, "there", f"-I{CHECKER}", target=compiled.POWERPC)
        cls.host = compiled.made(text_of(f"{CHECKER}/limits.c"), cls.folder, "host", f"-I{CHECKER}")
        cls.library("checker.so", f"{CHECKER}/validate.c")
        with open(cls.path("functions.c"), "w", encoding="ascii") as file:
            file.write(FUNCTIONS)
        cls.library("functions.so", cls.path("functions.c"))
        call("table", "build", cls.there, "-o", cls.path("limits.tbl"))

    @classmethod
    def library(cls, name, source):
        words = [compiled.HOST, "-shared", "-fPIC", f"-I{compiled.INCLUDE}", f"-I{CHECKER}", "-o", cls.path(name), source, "-lc"]
        subprocess.run(words, check=True)

    def judge(self, function, *words, library="functions.so", file="limits.tbl"):
        return call("table", "check", self.there, self.host, self.path(library), function, self.path(file), *words)

    def test_the_example(self):
        self.assertEqual(self.judge("CHECKER_ValidateLimits", library="checker.so"),
                         (0, b"event 12 INFORMATION: Limits version 3: 3 points in use\nCHECKER_ValidateLimits -> 0\n", ""))
        call("table", "set", self.there, "Point[1].High=-45", "-o", self.path("part.tbl"))
        self.assertEqual(self.judge("CHECKER_ValidateLimits", library="checker.so", file="part.tbl"), (
            1, b"event 12 ERROR: Point 1 (BATT_TEMP): low limit -5.00, high limit -45.00\nCHECKER_ValidateLimits -> 0xFFFFFFFD (-3)\n",
            f"cfetbl table: {self.path('part.tbl')} has bytes 68 to 71; the others are those of {self.there}\n"))
        call("table", "set", self.there, "Point[1].Low=-50", "--base", self.path("limits.tbl"), "-o", self.path("base.tbl"))
        self.assertEqual(self.judge("CHECKER_ValidateLimits", "--base", self.path("base.tbl"), library="checker.so", file="part.tbl")[:2],
                         (0, b"event 12 INFORMATION: Limits version 3: 3 points in use\nCHECKER_ValidateLimits -> 0\n"))

    def test_codes_and_events(self):
        self.assertEqual(self.judge("Accepts"), (0, b"Accepts -> 0\n", ""))
        self.assertEqual(self.judge("Rejects"), (1, b"Rejects -> 0xCF000001 (-822083583)\n", ""))
        self.assertEqual(self.judge("Positive"), (1, b"Positive -> 5\n", ""))
        self.assertEqual(self.judge("Tells"), (0, b"event 7 CRITICAL: first 3, text, 2.5\nevent 8 DEBUG: by 4\nlog: line 5\nlog: printed\n"
                                               b"Tells -> 0\n", ""))

    def test_functions_that_give_no_verdict(self):
        for function, wanted in (("Crashes", "Crashes: it ended by the signal SIGSEGV"),
                                 ("Loops", "Loops: it hasn't returned after 2 seconds of work"),
                                 ("Calls", f"{self.path('functions.so')}: it uses CFE_SB_NotThere, which isn't in it: link what defines "
                                  "that into it"),
                                 ("NoSuch", f"{self.path('functions.so')}: it has no function NoSuch")):
            self.assertEqual(self.judge(function), (1, b"", f"cfetbl table: {wanted}\n"))
        self.assertEqual(self.judge("Accepts", library="none.so"),
                         (1, b"", f"cfetbl table: {self.path('none.so')}: there is no such library\n"))

    def test_without_a_compiler(self):
        words = ("check", self.there, self.host, self.path("functions.so"), "Accepts", self.path("limits.tbl"))
        status, written, said = call("table", *words, env=os.environ | {"CC": "no-such-compiler"})
        self.assertEqual((status, written), (1, b""))
        self.assertEqual(said, "cfetbl table: no-such-compiler: a C compiler is needed for stand-ins of cFE's events, and there is none "
                         "($CC names one)\n")
