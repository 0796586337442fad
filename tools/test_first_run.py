"""Tests of `first-run`, with a stand-in for rt that builds nothing and runs the built program.

The program is PEHVONK_PROGRAM, or the one that the repository's gate or ./first-run --proved leaves. Without it the
tests that run it fail.
"""
import os
import shutil
import subprocess
import tempfile
import unittest
from pathlib import Path

import wire

TOP = Path(__file__).resolve().parent.parent
CRATE = TOP / "crates/audio_daemon"
PROGRAM = os.environ.get("PEHVONK_PROGRAM", str(CRATE / "out/audio_daemon"))
COMMANDS = "sh dirname mktemp rm mkdir cmp wc tr od".split()  # that the script uses, besides rt and python3
UNPROVED = "this build isn't proved yet: rt ci proves it\n"
AS_EXPECTED = "the replies are those that are expected\n"
RT = """#!/bin/sh
echo "$*" >> "{calls}"
while [ "$1" != -- ]; do shift; done
shift
exec "{program}" "$@"
"""


class FirstRun(unittest.TestCase):
    maxDiff = None

    def setUp(self):
        folder = tempfile.TemporaryDirectory()
        self.addCleanup(folder.cleanup)
        self.folder = Path(folder.name)
        self.path, self.calls = self.folder / "path", self.folder / "calls"
        self.path.mkdir()
        for command in COMMANDS + ["python3"]:
            (self.path / command).symlink_to(shutil.which(command))
        self.has_rt(PROGRAM)

    def has_rt(self, program):
        rt = self.path / "rt"
        rt.write_text(RT.format(calls=self.calls, program=program))
        rt.chmod(0o755)

    def run_with(self, *words, stdin=b""):
        """The status, standard output and standard error of the script, and the words of each call of rt."""
        done = subprocess.run([TOP / "first-run", *words], input=stdin, capture_output=True, cwd=self.folder,
                              env={"PATH": str(self.path), "TMPDIR": str(self.folder)})
        called = self.calls.read_text().splitlines() if self.calls.exists() else []
        return done.returncode, done.stdout, done.stderr.decode(), called

    def shows(self, ran, command, said):
        status, written, _, called = ran
        self.assertEqual((status, written.decode()), (0, said))
        self.assertEqual([call.rsplit("/", 2)[0] for call in called], [f"{command} -- replay {self.folder}"])
        self.assertEqual(sorted(file.name for file in self.folder.iterdir()), ["calls", "path"])

    def test_the_run_in_words(self):
        run = (TOP / "examples/01-hello.expected").read_text() + AS_EXPECTED
        self.shows(self.run_with(), "try", run + UNPROVED)
        self.calls.unlink()
        self.shows(self.run_with("--proved"), "run", run)

    def test_the_run_in_bytes(self):
        (self.path / "python3").unlink()
        self.shows(self.run_with(), "try", """input: 2152 bytes, beginning with
0000000 25 00 00 00 05 01 01 00 00 00 00 12 00 01 00 02
0000016 00 80 bb 00 00 00 ee 02 00 04 00 10 00 00 00 08
0000032
replies: 133 bytes, beginning with
0000000 0a 00 00 00 05 00 00 00 00 00 00 00 00 00 0a 00
0000016 00 00 01 01 00 00 00 00 00 00 00 00 12 00 00 00
0000032
endpoint-1.pcm: 1920 bytes, beginning with
0000000 00 00 00 00 01 00 ff ff 02 00 fe ff 03 00 fd ff
0000016 04 00 fc ff 05 00 fb ff 06 00 fa ff 07 00 f9 ff
0000032
""" + AS_EXPECTED + UNPROVED)

    def test_other_replies_than_expected(self):
        self.has_rt(shutil.which("true"))
        status, written, _, _ = self.run_with()
        self.assertEqual(status, 1)
        self.assertIn("    no reply\nthe replies are not those that are expected\n", written.decode())

    def test_a_build_that_fails(self):
        self.has_rt(shutil.which("false"))
        status, written, said, _ = self.run_with()
        self.assertEqual((status, written), (1, b""))
        self.assertTrue(said.endswith("\nfirst-run: rt ended with status 1\n"), said)

    def test_replay(self):
        for words, command, note in (([], "try", f"first-run: {UNPROVED}"), (["--proved"], "run", "")):
            with self.subTest(command):
                plays = self.folder / command
                plays.mkdir()
                ran = self.run_with(*words, "replay", command, stdin=(CRATE / "stdin").read_bytes())
                self.assertEqual(ran[:3], (0, (CRATE / "stdout").read_bytes(), note))
                self.assertEqual(ran[3][-1], f"{command} -- replay {plays.resolve()}")
                self.assertEqual((plays / "endpoint-1.pcm").stat().st_size, 1920)

    def test_replay_has_the_programs_status(self):
        period = wire.spell("Period", endpoint=1)
        ran = self.run_with("--proved", "replay", ".", stdin=period + b"\0\0\0\0")
        self.assertEqual((ran[0], ran[2]), (3, f"malformed at {len(period)}\n"))
        self.assertEqual(len(list(wire.bodies(ran[1]))), 1)

    def test_a_folder_that_is_not_there(self):
        for words in (["replay", "none"], ["--proved", "replay", "none"]):
            self.assertEqual(self.run_with(*words), (2, b"", "first-run: there is no folder 'none'\n", []))

    def test_other_words(self):
        for words in (["replay"], ["replay", ".", "."], ["play", "."], ["--prove"], ["--proved", "replay"], [""]):
            with self.subTest(words):
                status, written, said, called = self.run_with(*words)
                self.assertEqual((status, written, called), (2, b"", []))
                self.assertTrue(said.startswith("usage: ./first-run [--proved] [replay FOLDER < FILE]\n"), said)

    def test_help(self):
        status, written, said, called = self.run_with("--help")
        self.assertEqual((status, said, called), (0, "", []))
        self.assertTrue(written.startswith(b"usage: ./first-run [--proved] [replay FOLDER < FILE]\n"), written)

    def test_without_rt(self):
        (self.path / "rt").unlink()
        line = "first-run: rt, the toolchain's command, is not on the path\n"
        for words in ([], ["--proved"], ["replay", "."]):
            with self.subTest(words):
                self.assertEqual(self.run_with(*words), (127, b"", line, []))


if __name__ == "__main__":
    unittest.main()
