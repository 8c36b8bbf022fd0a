"""The records of a drill: the first draws of its generator, and that each is a record."""
import unittest

from tblkit import drill, records


class Drill(unittest.TestCase):
    def test_the_first_draws(self):
        generator = drill.Generator(0)
        self.assertEqual([generator.draw(8), generator.draw(3), generator.draw(256)], [7, 0, 17])

    def test_each_record_is_good(self):
        for record in drill.session(7, 300):
            self.assertFalse(records.head_fault(record[:4]) or records.body_fault(record[0], record[4:]))

    def test_the_number_of_records(self):
        self.assertEqual(len(list(drill.session(7, 300))), 309)
