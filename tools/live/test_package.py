"""What `tools/package` makes, unpacked: the program, its manual pages and its completions."""

import gzip
import os
import pathlib
import re
import shutil
import subprocess
import tempfile
import unittest

from .program import PROGRAM, ROOT, LiveTest, rows, run

HELP = run(["--help"]).text
COMMANDS = re.findall(r"^  (?!help)([a-z]+)  ", HELP, re.M)
TOPICS = re.findall(r"^  mcrace help (?!all)([a-z]+)  ", HELP, re.M)
OPTION = re.compile(r"^ +(?:(-\w), )?(--[a-z-]+)", re.M)
EXAMPLE = re.compile(r"\| `(mcrace .*)` \|$", re.M)
MARKS = {r"\-": "-", r"\(aq": "'", r"\(ha": "^", r"\(ti": "~", r"\(ga": "`", r"\&": "", r"\e": "\\"}
# What bash offers after these words.
OFFERED = '. "$1"; COMP_WORDS=("${@:2}"); COMP_CWORD=$(($# - 2)); _mcrace; echo "${COMPREPLY[@]}"'


def options_in(text):
    return {name for names in OPTION.findall(text) for name in names if name}


def told(*words, **more):
    return subprocess.run(words, capture_output=True, text=True, check=True, **more).stdout


def words_of(page, section):
    """The words of a section of a manual page, without what marks them."""
    text = re.search(rf"^\.SH {section}\n(.*?)(?=^\.SH|\Z)", page, re.M | re.S)[1]
    text = re.sub(r"^\.(?!SS).*\n|^\.SS\n|\\f[BIR]", "", text, flags=re.M)
    text = re.sub(r"\\(?:\(..|.)", lambda it: MARKS[it[0]], text)
    return text.replace("`", "").split()


class Packages(LiveTest):
    """The package and the archive, made twice."""

    seconds = 10

    @classmethod
    def setUpClass(cls):
        if shutil.which("dpkg-deb") is None:
            raise unittest.SkipTest("dpkg-deb is not installed")
        cls.top = tempfile.TemporaryDirectory()
        cls.addClassCleanup(cls.top.cleanup)
        top = pathlib.Path(cls.top.name)
        cls.made = [cls.make(top / "first", ROOT, 0o022), cls.make(top / "second", top, 0o077)]
        package, archive = cls.made[0]
        cls.usr, cls.prefix = top / "root/usr", top / "prefix"
        cls.prefix.mkdir()
        told("dpkg-deb", "-x", package, top / "root")
        told("tar", "-xzf", archive, "--strip-components=1", "-C", cls.prefix)
        cls.doc = cls.usr / "share/doc/mcrace"

    @staticmethod
    def make(folder, at, umask):
        words = [ROOT / "tools/package", PROGRAM, folder]
        return told(*words, cwd=at, preexec_fn=lambda: os.umask(umask)).splitlines()

    def offered(self, *words):
        """What bash offers for the last of these words."""
        file = self.usr / "share/bash-completion/completions/mcrace"
        return {*told("bash", "-c", OFFERED, "bash", file, *words).split()}

    def page(self, name, section):
        path = self.usr / f"share/man/man{section}/{name}.{section}.gz"
        return gzip.decompress(path.read_bytes()).decode()

    def test_same_bytes(self):
        for first, second in zip(*self.made):
            is_same = pathlib.Path(first).read_bytes() == pathlib.Path(second).read_bytes()
            self.assertTrue(is_same, f"{first} and {second} differ")

    def test_files(self):
        """Both have the same files, but for licences and where zsh looks for completions."""
        package, archive = ({str(it.relative_to(top)): (it.read_bytes(), it.stat().st_mode)
                             for it in top.rglob("*") if it.is_file()}
                            for top in (self.usr, self.prefix))
        moved = "share/zsh/vendor-completions/_mcrace"
        archive[moved] = archive.pop("share/zsh/site-functions/_mcrace")
        only = {"LICENSE-APACHE", "LICENSE-MIT", "copyright", "changelog.gz", "mcrace"}
        for name in package.keys() ^ archive.keys():
            self.assertIn(pathlib.Path(name).name, only)
        both = package.keys() & archive.keys()
        self.assertEqual([it for it in both if package[it] != archive[it]], [])
        self.assertEqual(package["bin/mcrace"][0], PROGRAM.read_bytes())

    def test_examples(self):
        """Each example that needs no server can be typed as the manual pages show it."""
        lines = EXAMPLE.findall((self.doc / "examples/README.md").read_text(encoding="utf-8"))
        is_alone = lambda line: not re.search(" (run|serve|campaign) ", line)
        lines = [it.replace(r"\|", "|") for it in lines if is_alone(it)]
        self.assertGreater(len(lines), 5)
        path = f"{self.usr}/bin:{os.environ['PATH']}"
        for line in lines:
            with self.subTest(line):
                ran = subprocess.run(["bash", "-c", line], cwd=self.doc, capture_output=True,
                                     env={**os.environ, "PATH": path}, check=False)
                self.assertIn(ran.returncode, (0, 1, 3, 4), ran)
                told = b"mcrace: racy server: race found, as it should be\n"
                self.assertEqual(ran.stderr, told if line.endswith("selftest") else b"")
                self.assertNotEqual(ran.stdout, b"")

    @rows((it, it.split()) for it in ["", *COMMANDS])
    def test_options_in_manual_pages(self, words):
        options = words_of(self.page("-".join(["mcrace", *words]), 1), "OPTIONS")
        wanted = options_in(run([*words, "--help"]).text)
        self.assertLessEqual(wanted, {it.rstrip(",") for it in options})

    @rows([*((it, it, 1) for it in COMMANDS), *((it, it, 5) for it in TOPICS)])
    def test_texts_of_manual_pages(self, name, section):
        """What help says stands in the page, word by word."""
        text = re.split("^Usage: ", run(["help", name]).text, flags=re.M)[0]
        self.assertEqual(words_of(self.page(f"mcrace-{name}", section), "DESCRIPTION"),
                         text.replace("`", "").split())

    def test_words_in_completions(self):
        self.assertEqual(self.offered("mcrace", "r"), {"record", "run"})
        self.assertEqual(self.offered("mcrace", "help", "s"),
                         {it for it in COMMANDS + TOPICS if it.startswith("s")})
        self.assertEqual(self.offered("mcrace", "run", "HOST:PORT", "--meet", ""),
                         {"drawn", "each", "first", "never"})
        self.assertEqual(self.offered("mcrace", "run", "HOST:PORT", "--limit", ""), set())

    @rows((it, it.split()) for it in ["", *COMMANDS])
    def test_options_in_completions(self, words):
        """Each shell is offered all options, and no other; bash is asked."""
        wanted = options_in(run([*words, "--help"]).text)
        self.assertEqual(self.offered("mcrace", *words, "-"), wanted)
        zsh = self.usr / "share/zsh/vendor-completions/_mcrace"
        fish = self.usr / "share/fish/vendor_completions.d/mcrace.fish"
        case = re.search(rf"^\('{''.join(words)}'\) .*", zsh.read_text(encoding="utf-8"), re.M)[0]
        self.assertEqual({*re.findall(r"'(-[-\w]+)\[", case)}, wanted)
        at = f"'__fish_seen_subcommand_from {words[0]}'" if words else "__fish_use_subcommand"
        found = re.findall(f" -n {at} (?:-s (\\S) )?-l (\\S+)", fish.read_text(encoding="utf-8"))
        short, long = ({it for it in names if it} for names in zip(*found))
        self.assertEqual({f"-{it}" for it in short} | {f"--{it}" for it in long}, wanted)
        for shell, file in (("zsh", zsh), ("fish", fish)):
            if shutil.which(shell):
                told(shell, "-n", file)
