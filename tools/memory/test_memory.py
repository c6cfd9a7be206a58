"""What tools/memory/run finds: a call that isn't listed, or is though it can't say that there is no
memory, one that never says it, a test that ends in another way; and nothing else."""

import pathlib
import re
import tempfile
import unittest

import calls
import refusal

LIBRARY = pathlib.Path(__file__).with_name("small-library").read_text(encoding="utf-8")
FILES = dict(re.findall(r"(?ms)^== (\S+)\n(.*?)(?=^== |\Z)", LIBRARY))
COPIES = "test_small texts::copies: mc_small::Text::copy"
NONE = "none, it is asked for: mc_small::Writer::write"
LACKS, HAS = f"{calls.FILE} lacks mc_small::", f"{calls.FILE} has mc_small::"
# The list, and how what is wrong with it begins.
LISTS = [
    (f"{COPIES} mc_small::words\n{NONE}\n", []),
    (f"{COPIES}\n{NONE}\n", [LACKS + "words"]),
    (f"{COPIES} mc_small::words\n", [LACKS + "Writer::write"]),
    (f"{COPIES} mc_small::words mc_small::length\n{NONE}\n", [HAS + "length"]),
]
UNEQUAL = "assertion `left == right` failed\n  left: "
# How a run of a test may end: its status, and what it wrote to standard error; and how it may not.
MAY_END = [(0, ""), (101, "error: OutOfMemory\n"), (101, "error: NoThread\n"),
           (-6, UNEQUAL + "Err(ScriptFault { kind: OutOfMemory, line: 0 })\n right: Ok(1)\n")]
MAY_NOT_END = [(-6, UNEQUAL + "Ok(2)\n right: Ok(1)\n"), (-11, ""), (-6, "index out of bounds\n"),
               (-6, UNEQUAL + "Ok(2)\n right: Err(OutOfMemory)\n"), (101, "error: Refused\n"),
               (-6, UNEQUAL + "Err(NoThread)\n right: Ok(1)\n"),
               (-6, "assertion failed: is_found(rt.alloc(), requests)?\n")]


class Memory(unittest.TestCase):
    def test_lists(self):
        for listed, wanted in LISTS:
            with self.subTest(listed), tempfile.TemporaryDirectory() as folder:
                root = pathlib.Path(folder)
                for name, text in {**FILES, calls.FILE: listed}.items():
                    (root / name).parent.mkdir(parents=True, exist_ok=True)
                    (root / name).write_text(text, encoding="utf-8")
                found = calls.faults(root)
                self.assertEqual([it.partition(",")[0] for it in found], wanted)

    def test_ends(self):
        for status, said in MAY_END + MAY_NOT_END:
            with self.subTest(said):
                may_end = refusal.test_may_end(None, (status, b"", said.encode()))
                self.assertEqual(may_end, (status, said) in MAY_END)
