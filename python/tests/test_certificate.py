"""What a certificate says of a gate, in trees over two gates worked by hand."""

import unittest

from mari import Item
from mari.certificate import Gate, leaves

BRANCH, BOUND = Item("branch"), Item("bound", ("20.00",))
CUT, CONFLICT = Item("cut", ("in 1",)), Item("conflict", ("1", "20.00", "", "5"))


class TestLeaves(unittest.TestCase):
    def test_two_gates(self):
        """The first gate is decided, and where it is open the second: closed first."""
        found = leaves([BRANCH, BOUND, BRANCH, CUT, CONFLICT], [Gate(), Gate()])
        words = {word: found.of(word) for word in ("00", "01", "10", "11")}
        self.assertEqual(words, {"00": BOUND, "01": BOUND, "10": CUT, "11": CONFLICT})
        self.assertEqual([*found.with_open(0)], [CUT, CONFLICT])
        self.assertEqual([*found.with_open(1)], [BOUND, CONFLICT])

    def test_what_may_not_open(self):
        """Beside an open gate of its group, or without its parent, a gate has no open side."""
        group = leaves([BRANCH, BOUND, BRANCH, CUT], [Gate("g"), Gate("g")])
        self.assertEqual((group.of("10"), group.of("11")), (CUT, None))
        child = leaves([BRANCH, BRANCH, BOUND, BRANCH, CUT, CONFLICT], [Gate(), Gate(None, 0)])
        self.assertEqual([child.of(word) for word in ("00", "01", "10", "11")], [BOUND, None, CUT, CONFLICT])

    def test_trees_of_other_gates(self):
        for tree, gates in (([BRANCH, BOUND], [Gate()]), ([BOUND, BOUND], [Gate()]), ([BRANCH, BOUND, CUT], [])):
            self.assertIsNone(leaves(tree, gates))


if __name__ == "__main__":
    unittest.main()
