"""JSON, EDN and JUnit's XML, as other readers take them: of each case, and of each input of one."""

import json
import re
import subprocess
import unittest
import xml.etree.ElementTree

import cases

from .program import COUNTER, PROGRAM, SECONDS, run
from .test_scripts import ScriptTest
from .test_suite import WIDE_WINDOW

# An operation of EDN: its values are a string, numbers, keywords and strings.
VALUE = r'(?:"(?:[ !#-\[\]-~]|\\["\\])*"|\d+N?|:[A-Z_]+)'
OPERATION = re.compile(rf"{{:process \d\d?, :type :(?:invoke|ok|info), :f :[a-z]+, :value \[{VALUE}"
                       rf"(?: {VALUE})*\], :index \d+}}")
NOTE = re.compile(rb"^ *(?:[PAB]|\d+) +(?:begin|reply) ", re.M)


def answered(words, given):
    """What the program writes, and its status."""
    ran = subprocess.run([PROGRAM, *words], input=given, capture_output=True, check=False,
                         timeout=SECONDS)
    return ran.stdout.decode("ascii"), ran.returncode


class Forms(unittest.TestCase):
    """What is written in these forms is read by Python's readers."""

    def setUp(self):
        self.cases = [case for path in cases.all_files() for case in cases.cases_in(path)]

    def inputs_of(self, command):
        """The inputs of a command's cases, without those that are too long."""
        found = {case.input for case in self.cases if case.words[:1] == [command]}
        return sorted(it for it in found if len(it) <= 1_048_576)

    def test_shown(self):
        """What cases show is in its form."""
        for case in self.cases:
            text = (case.output or b"").decode("latin-1")
            with self.subTest(case.name):
                if text.startswith('{"'):
                    for line in text.splitlines():
                        json.loads(line)
                if text.startswith("<?xml"):
                    xml.etree.ElementTree.fromstring(text)

    def test_answers(self):
        """Each answer in JSON has the status of the text, and says that it is refused if it is."""
        for command in ("judge", "check"):
            for given in self.inputs_of(command):
                with self.subTest(command, given=given):
                    text, status = answered([command, "--limit", "1000"] if command == "judge"
                                            else [command], given)
                    words = [command, "--json"]
                    found, same = answered([*words, "--limit", "1000"] if command == "judge"
                                           else words, given)
                    self.assertEqual(same, status)
                    read = json.loads(found)
                    self.assertEqual("refused" in read, status == 3)
                    if status != 3:
                        self.assertEqual(read["verdict"], text.splitlines()[0])

    def test_histories(self):
        """A history that is judged has as many notes in JSON and in EDN as it has lines."""
        for given in self.inputs_of("judge"):
            with self.subTest(given=given):
                _, refused = answered(["judge", "--limit", "0"], given)
                text, status = answered(["convert", "--to", "json"], given)
                if refused == 3 or status == 3:
                    continue
                history = json.loads(text)["history"]
                found, status = answered(["convert", "--to", "edn"], given)
                if history["version"] == 1:
                    self.assertEqual((found, status), ("refused edn\n", 3))
                    continue
                self.assertEqual(len(history["notes"]), len(NOTE.findall(given)))
                lines = [it for it in found.splitlines() if " :info," not in it]
                self.assertEqual(len(lines), len(history["notes"]))
                for line in found.splitlines():
                    self.assertRegex(line, OPERATION)


class FormsOfRuns(ScriptTest):
    """What is written of runs and of campaigns, at a server that loses increments."""

    def setUp(self):
        self.address = f"127.0.0.1:{self.enter(self.faulty('lost-increment', WIDE_WINDOW)).port}"

    def test_run(self):
        ran = run(["run", self.address, "--times", "100000", "--why", "--json"], COUNTER)
        read = json.loads(ran.output)
        self.assertEqual((ran.status, read["verdict"]), (1, "unexplained"))
        self.assertEqual((read["totals"]["unexplained"], read["run"]), (1, read["totals"]["runs"]))
        self.assertEqual(read["why"]["reply"]["word"], "NUMBER")
        self.assertEqual(read["history"]["sections"], ["P", "A", "B"])

    def test_refused_script(self):
        ran = run(["run", self.address, "--json"], b"script 3\n")
        self.assertEqual((ran.status, json.loads(ran.output)["refused"]["line"]), (3, 1))

    def test_campaign(self):
        """With a seed that is drawn, which standard error and the last line say."""
        ran = run(["campaign", self.address, "--jobs", "50", "--json", "--random-seed"])
        *jobs, totals = map(json.loads, ran.output.splitlines())
        self.assertEqual((totals["jobs"], totals["totals"]["jobs"]), ("50", 50))
        self.assertIn(f"mcrace: seed {totals['seed']}, jobs 0 to 49", ran.faults)
        self.assertEqual(len(jobs), totals["totals"]["unexplained"])
        self.assertTrue(all(it["history"]["notes"] for it in jobs))

    def test_junit(self):
        ran = run(["campaign", self.address, "--jobs", "150", "--junit"])
        suite = xml.etree.ElementTree.fromstring(ran.output)
        self.assertEqual((len(suite), suite.get("tests"), suite.get("errors")), (2, "2", "0"))
        self.assertEqual(ran.status, int(suite.get("failures") != "0"))
