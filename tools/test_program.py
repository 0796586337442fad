"""The built program as a process: its words, exit statuses, lines on standard error, and the files that it adds to.

The program is PEHVONK_PROGRAM, or the one that the repository's gate or ./first-run --proved leaves. Without it these
tests fail.
"""
import os
import resource
import subprocess
import tempfile
import time
import unittest
from pathlib import Path

import wire

CRATE = Path(__file__).resolve().parent.parent / "crates/audio_daemon"
PROGRAM = os.environ.get("PEHVONK_PROGRAM", str(CRATE / "out/audio_daemon"))
PCM = wire.format_bytes(48000, 2)
STARTED = [
    wire.spell("Add", endpoint=1, flow=0, format=PCM, name=b"Speakers"),
    wire.spell("Open", conn=1, pid=10, name=b"player"),
    wire.spell("Activate", conn=1, tag=1, endpoint=1, role=0),
    wire.spell("Initialize", conn=1, tag=2, client=1, share=0, duration=0, format=PCM),
    wire.spell("Start", conn=1, tag=3, client=1),
]
PERIOD = wire.spell("Period", endpoint=1)
GET_BUFFER = wire.spell("GetBuffer", conn=1, tag=4, client=1, frames=1)


def replies(data):
    return [wire.read_reply(body) for body in wire.bodies(data)]


class Program(unittest.TestCase):
    def setUp(self):
        folder = tempfile.TemporaryDirectory()
        self.addCleanup(folder.cleanup)
        self.folder = Path(folder.name)

    def run_with(self, words, stdin=b"", **how):
        how = {"stdout": subprocess.PIPE, **how}
        how.update({"input": stdin} if isinstance(stdin, bytes) else {"stdin": stdin})
        return subprocess.run([PROGRAM, *words], stderr=subprocess.PIPE, **how)

    def replay(self, stdin, **how):
        return self.run_with(["replay", self.folder], stdin, **how)

    def ends(self, done, status, said):
        self.assertEqual((done.returncode, done.stderr), (status, said))

    def test_other_words_give_the_usage(self):
        wrong = [[], ["replay"], ["replay", "a", "b"], ["play", "a"], ["replay", ""], ["replay", "-"],
                 ["replay", "--help"], ["--help"], ["replay", b"\xff"], ["Replay", "a"], ["a", "replay"]]
        for words in wrong:
            with self.subTest(words):
                done = self.run_with(words, PERIOD)
                self.assertEqual((done.returncode, done.stdout), (2, b""))
                self.assertTrue(done.stderr.startswith(b"usage: audio_daemon replay FOLDER\n"), done.stderr)

    def test_events_give_status_0_and_say_nothing(self):
        self.ends(self.replay(b""), 0, b"")
        done = self.replay(b"".join(STARTED) + PERIOD)
        self.ends(done, 0, b"")
        self.assertEqual([reply.result for reply in replies(done.stdout)], [0] * 6)
        self.assertEqual((self.folder / "endpoint-1.pcm").read_bytes(), bytes(1920))

    def test_a_second_run_adds_to_the_file(self):
        for runs in 1, 2:
            self.ends(self.replay(STARTED[0] + PERIOD), 0, b"")
            self.assertEqual((self.folder / "endpoint-1.pcm").stat().st_size, 1920 * runs)

    def test_malformed_input_gives_its_place(self):
        self.ends(self.replay(bytes(4)), 3, b"malformed at 0\n")
        done = self.replay(PERIOD + PERIOD + PERIOD[:-1])
        self.ends(done, 3, b"malformed at %d\n" % (2 * len(PERIOD)))
        self.assertEqual(len(replies(done.stdout)), 2)

    def test_a_read_fault(self):
        folder = os.open(self.folder, os.O_RDONLY)
        self.addCleanup(os.close, folder)
        self.ends(self.replay(folder), 4, b"read fault\n")

    def test_a_write_fault(self):
        with open("/dev/full", "wb") as full:
            self.ends(self.replay(PERIOD, stdout=full), 5, b"write fault\n")

    def test_no_memory(self):
        # the program waits for its input while its memory is limited to what it has; then half of a large frame comes
        process = subprocess.Popen([PROGRAM, "replay", self.folder], stdin=subprocess.PIPE, stdout=subprocess.PIPE,
                                   stderr=subprocess.PIPE)
        while Path(f"/proc/{process.pid}/stat").read_text().rsplit(")", 1)[1].split()[0] != "S":
            time.sleep(0.001)
        has = int(Path(f"/proc/{process.pid}/statm").read_text().split()[0]) * os.sysconf("SC_PAGE_SIZE")
        resource.prlimit(process.pid, resource.RLIMIT_AS, (has, has))
        written, said = process.communicate((4_000_000).to_bytes(4, "little") + bytes(2_000_000))
        self.assertEqual((process.returncode, written, said), (6, b"", b"no memory\n"))

    def test_a_folder_that_is_not_there(self):
        # it fails as a device does: the period is answered, and then the endpoint is gone
        done = self.run_with(["replay", self.folder / "none"], b"".join(STARTED) + PERIOD + GET_BUFFER)
        self.ends(done, 0, b"")
        period, lease = replies(done.stdout)[-2:]
        self.assertEqual((period.result, period.payload), (0, bytes(4) + b"\1"))
        self.assertEqual(lease.result, wire.RESULTS["DEVICE_INVALIDATED"])


if __name__ == "__main__":
    unittest.main()
