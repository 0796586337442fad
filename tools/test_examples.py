"""Every script of examples/, run on the built program as its comment says, prints what is stored beside it; and so does
every Python example.

The program is PEHVONK_PROGRAM, or the one that the repository's gate or ./first-run --proved leaves. Without it this
fails.
"""
import os
import shutil
import subprocess
import sys
import tempfile
import unittest
from pathlib import Path

from load_tool import load_tool, run_main
from test_docs import BLOCKS

TOOLS = Path(__file__).resolve().parent
ROOT = TOOLS.parent
PROGRAM = os.path.abspath(os.environ.get("PEHVONK_PROGRAM", ROOT / "crates/audio_daemon/out/audio_daemon"))

events = load_tool("events")


def words_of(script):
    """The words of the command that the script's comment names, behind `tools/events`."""
    for line in script.read_text().splitlines():
        words = line.split()
        if words[:2] == ["#", "tools/events"]:
            return words[2:]
    raise AssertionError(f"{script.name} says no command")


class Examples(unittest.TestCase):
    maxDiff = None

    def setUp(self):
        if not os.path.exists(PROGRAM):
            self.fail(f"no program at {PROGRAM}: build it with ./first-run --proved, or name one in PEHVONK_PROGRAM")

    def examples(self, ending):
        found = sorted((ROOT / "examples").glob(f"*{ending}"))
        self.assertTrue(found, f"there are no examples *{ending}")
        return found

    def test_scripts(self):
        for script in self.examples(".script"):
            with self.subTest(script.name):
                words = words_of(script)
                self.assertEqual(words[1], f"examples/{script.name}")
                words[1] = str(ROOT / words[1])
                expected = script.with_suffix(".expected").read_text()
                self.assertEqual(run_main(events, [*words, "--program", PROGRAM]), (0, expected, ""))

    def test_numbers(self):
        numbers = [int(script.name[:2]) for script in self.examples(".script")]
        self.assertEqual(numbers, list(range(1, len(numbers) + 1)))

    def test_python(self):
        where = {**os.environ, "PYTHONPATH": str(TOOLS), "PEHVONK_PROGRAM": PROGRAM, "PYTHONDONTWRITEBYTECODE": "1"}
        for example in self.examples(".py"):
            with self.subTest(example.name):
                done = subprocess.run([sys.executable, str(example)], capture_output=True, text=True, env=where)
                expected = example.with_suffix(".expected").read_text()
                self.assertEqual((done.stdout, done.stderr, done.returncode), (expected, "", 0))


class ThePage(unittest.TestCase):
    """docs/BENCH.md: what its commands print is what stands beneath them."""

    def test_commands(self):
        script, ran = None, 0
        for _, language, lines in BLOCKS["BENCH.md"]:
            if language == "script":
                script = "\n".join(lines) + "\n"
            elif lines[0].startswith("$ tools/events "):
                with self.subTest(lines[0]):
                    printed = self.printed(lines[0].split()[2:], script)
                    self.assertEqual(lines[1:], printed[:len(lines) - 1])
                    ran += 1
        self.assertEqual(ran, 2)

    def printed(self, words, script):
        """The lines of standard error, or if there are none of standard output."""
        with tempfile.TemporaryDirectory() as folder:
            Path(folder, "my.script").write_text(script)
            shutil.copy(ROOT / "examples/voice.wav", folder)
            words = [f"{folder}/{word}" if word == "my.script" else str(ROOT / word) if "/" in word else word
                     for word in words]
            words += ["--program", PROGRAM] if words[0] == "run" else []
            _, out, said = run_main(events, words)
            return (said or out).replace(f"{folder}/", "").splitlines()


if __name__ == "__main__":
    unittest.main()
