"""The engine that is tried, beside the plain one."""
import unittest

import fixtures
from compare_engines import compare_all

KINDS = {
    "submit", "repeat", "read", "cancelled", "position", "refused P2", "refused P3", "refused P11", "refused P12",
    "refused P13", "refused P14", "refused P15", "refused P16", "fault L1", "fault L2", "fault L3", "fault L4", "fault O1",
    "entry commit", "entry conflict", "entry stale", "entry repeat", "entry session", "entry added", "entry taken C1", "entry taken C2",
    "window", "table", "additions", "origin", "proc", "row", "request",
    *(f"entry nothing E{it}" for it in range(1, 8)),
}


class Engines(unittest.TestCase):
    def test_drawn_orders(self):
        count = 14 if fixtures.PLAIN in fixtures.ENGINE else 200
        differences, kinds = compare_all(fixtures.ENGINE, 1, count)
        self.assertEqual(differences, [])
        self.assertEqual(set(kinds), KINDS)
