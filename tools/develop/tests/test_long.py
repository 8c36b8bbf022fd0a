"""Long sessions: what 30,000 requests take under `show` and `report`, and what their page has."""
import resource
import time
import unittest

from tblkit import matching, records, report, show, transcript

from . import long_session
from .test_commands import call

# Seconds of one processor. The aim is 2 (docs/work/performance.md has what was measured); a gate may have a slower machine, at other work.
MOST_SECONDS, MOST_BYTES = 6, 3_000_000
SHOWN = (("show",), ("show", "--json"), ("show", "--session-order"))


def seconds():
    used = resource.getrusage(resource.RUSAGE_CHILDREN)
    return used.ru_utime + used.ru_stime


class Long(unittest.TestCase):
    def test_a_long_session(self):
        with long_session.played() as (session, output):
            for words in SHOWN:
                with self.subTest(words):
                    begun = seconds()
                    status, written, said = call(*words, session, output)
                    self.assertEqual((status, said), (0, ""))
                    self.assertGreater(written.count(b"\n"), 29 * long_session.REQUESTS // 30)
                    self.assertLess(seconds() - begun, MOST_SECONDS)
            self.check_page(session, output)

    def check_page(self, session, output):
        """The page of a transcript that is held against its session is small and soon there, and each refusal keeps its number."""
        begun = time.process_time()
        with open(session, "rb") as source, open(output, "rb") as played:
            index = records.Index(source)
            made, statuses = report.Report("a long session", index, following=matching.Match()), []
            for part in show.answers(transcript.parts(played), index):
                made.add(part)
                statuses += [part.status] if isinstance(part, show.Answer) else []
        page = made.page()
        self.assertLess(time.process_time() - begun, MOST_SECONDS)
        self.assertLess(len(page), MOST_BYTES)
        content = report.unpacked(page)
        self.assertEqual(content["status"], statuses)
        self.assertEqual({statuses[place] for place in content["refused"]}, {33, 34, 65})


if __name__ == "__main__":
    unittest.main()
