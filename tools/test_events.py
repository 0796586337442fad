"""Tests of the words of `events`, and of what it prints. The programs that it runs here are made by hand."""
import json
import os
import subprocess
import sys
import tempfile
import unittest
from pathlib import Path

import shown
import wire
from load_tool import load_tool, run_main
from test_script import PLACE, TOOLS, spelled
from test_wire import GUID

events = load_tool("events")
USAGE = """usage: events run SCRIPT [--program PATH] [--input ENDPOINT=FILE]... [--captured CLIENT=FILE]...
                  [--keep FOLDER] [--json]
       events show [--json] [--events | --replies] FILE
       events show [--json] EVENTS REPLIES [FOLDER]
       events spell SCRIPT
       events module
       events --help [EVENT]
"""


def tool(*words, stdin=b""):
    return run_main(events, words, stdin)


def run_program(program, script, *options):
    """What a run of a program that is made by hand prints."""
    with tempfile.TemporaryDirectory() as folder:
        file = Path(folder) / "program"
        file.write_text(program)
        file.chmod(0o755)
        return tool("run", "-", "--program", str(file), *options, stdin=script.encode())


class TheProgramsWords(unittest.TestCase):
    REPLIES = """device conn=0 tag=0: S_OK
open conn=1 tag=0: S_OK
call conn=1 tag=1: S_OK payload=0100000000000000
call conn=1 tag=2: S_OK payload=0100000000000000
call conn=1 tag=3: S_OK
call conn=1 tag=4: S_OK
call conn=1 tag=5: S_OK
period conn=0 tag=0: S_OK frames=480 outcome=done
"""
    EVENTS = """add endpoint=1 flow=render format=48000x2 name="Speakers"
open conn=1 pid=10 name="player"
activate conn=1 tag=1 endpoint=1 role=console
initialize conn=1 tag=2 client=1 share=shared flags=0 duration=0 period=0 format=48000x2 session=null
getbuffer conn=1 tag=3 client=1 frames=480
releasebuffer conn=1 tag=4 client=1 frames=480 flags=0 bytes=000000000100ffff0200feff0300fdff...(1920 bytes)
start conn=1 tag=5 client=1
period endpoint=1
"""

    def ends(self, done, status, line):
        """What was written to standard output, if the tool ended with a status and one line."""
        self.assertEqual((done[0], done[2]), (status, line))
        return done[1]

    def test_show(self):
        for name, lines in (("stdout", self.REPLIES), ("stdin", self.EVENTS)):
            with self.subTest(name):
                self.assertEqual(self.ends(tool("show", str(PLACE / name)), 0, ""), lines)
                self.assertEqual(self.ends(tool("show", "-", stdin=(PLACE / name).read_bytes()), 0, ""), lines)

    def test_show_of_what_could_be_both(self):
        file = "0a000000" "03" "01" "01000000" "00000000"  # a reply of S_OK, or a call of code 0
        for words, line in (((), "call conn=1 tag=1: S_OK\n"), (("--replies",), "call conn=1 tag=1: S_OK\n"),
                            (("--events",), "call conn=1 tag=1 code=0 rest=000000\n")):
            with self.subTest(words):
                self.assertEqual(self.ends(tool("show", *words, "-", stdin=bytes.fromhex(file)), 0, ""), line)

    def test_json(self):
        lines = self.ends(tool("show", "--json", str(PLACE / "stdin"), str(PLACE / "stdout")), 0, "").splitlines()
        self.assertEqual(json.loads(lines[3]), {
            "event": {"event": "Initialize", "conn": 1, "tag": 2, "client": 1, "share": "shared", "flags": 0,
                      "duration": 0, "period": 0, "format": "48000x2", "session": "null"},
            "reply": {"reply": "Initialize", "conn": 1, "tag": 2, "result": "S_OK", "session": 1}})
        self.assertEqual(json.loads(lines[7]), {
            "event": {"event": "Period", "endpoint": 1},
            "reply": {"reply": "Period", "conn": 0, "tag": 0, "result": "S_OK", "frames": 480, "outcome": "done"}})
        first = self.ends(tool("show", "--json", str(PLACE / "stdin")), 0, "").splitlines()[0]
        self.assertEqual(json.loads(first), {"event": "Add", "endpoint": 1, "flow": "render", "format": "48000x2",
                                             "name": "Speakers"})
        last = self.ends(tool("show", "--json", str(PLACE / "stdout")), 0, "").splitlines()[-1]
        self.assertEqual(json.loads(last), {"reply": "Period", "conn": 0, "tag": 0, "result": "S_OK", "frames": 480,
                                            "outcome": "done"})

    def test_show_of_a_run(self):
        with tempfile.TemporaryDirectory() as folder:
            data = range(480), range(0, -480, -1)
            samples = [sample & 0xFFFF for frame in zip(*data) for sample in frame]
            played = b"".join(sample.to_bytes(2, "little") for sample in samples)
            (Path(folder) / "endpoint-1.pcm").write_bytes(played)
            done = tool("show", str(PLACE / "stdin"), str(PLACE / "stdout"), folder)
        self.assertEqual(self.ends(done, 0, ""), (TOOLS.parent / "examples/01-hello.expected").read_text())
        done = tool("show", str(PLACE / "stdin"), "no/replies", str(TOOLS))
        self.assertEqual(self.ends(done, 2, "no/replies: No such file or directory\n"), "")

    def test_show_of_other_results(self):
        frames = "0a000000" "03" "01" "01000000" "01008988" "0a000000" "01" "02" "00000000" "efbeadde"
        lines = "call conn=1 tag=1: NOT_INITIALIZED\nopen conn=2 tag=0: 0xDEADBEEF\n"
        self.assertEqual(self.ends(tool("show", "-", stdin=bytes.fromhex(frames)), 0, ""), lines)

    def test_event_flags_are_told_ahead_of_notices(self):
        payload = ("02000000" "0100000000000000" "4d00000000000000" "0200000000000000" "ffffffffffffffff"
                   "0000000000000000" "00000000")
        reply = bytes.fromhex("03" "01" "01000000" "00000000" + payload)
        self.assertEqual(shown.reply_line(reply, "TakeNotices"),
                         "S_OK events=[client=1 handle=77, client=2 handle=18446744073709551615] lost=0 notices=[]")
        self.assertEqual(shown.reply_object(reply, "AwaitNotices"),
                         {"reply": "AwaitNotices", "conn": 1, "tag": 1, "result": "S_OK", "lost": 0, "notices": [],
                          "events": [{"client": 1, "handle": 77}, {"client": 2, "handle": 2 ** 64 - 1}]})

    def test_notices_have_names(self):
        payload = ("00000000" "0100000000000000" "02000000"
                   "03" "0100000000000000" + "00" * 16 + "0800000000000000" "0000"
                   "0b" "0200000000000000" + GUID + "0000000000000000" "0200" "4869")
        line = shown.reply_line(bytes.fromhex("03" "01" "01000000" "00000000" + payload), "TakeNotices")
        self.assertEqual(line, 'S_OK events=[] lost=1 notices=['
                         'notice=device_state subject=1 context=null value=8 text="", '
                         'notice=display_name subject=2 context=00112233-4455-6677-8899-aabbccddeeff value=0 '
                         'text="Hi"]')

    def test_show_of_a_cut_or_malformed_input(self):
        wrong = [("05000000" "04", "5 bytes are wanted and 1 are left"),
                 ("05", "4 bytes are wanted and 1 are left"),
                 ("0100000009", "kind 9 is not from 1 to 7"),
                 ("00000000", "length 0 is not from 1 to 4194304")]
        for data, fault in wrong:
            with self.subTest(data):
                done = tool("show", "--events", "-", stdin=bytes.fromhex("0100000007" + data))
                self.assertEqual(self.ends(done, 3, f"malformed at 5: {fault}\n"), "shutdown\n")

    def test_spell_from_standard_input(self):
        self.assertEqual(self.ends(tool("spell", "-", stdin=b"shutdown\n"), 0, ""), "\1\0\0\0\7")
        done = tool("spell", "-", stdin=b"shutdown\nperiod\n")
        self.assertEqual(self.ends(done, 2, "-:2:1: endpoint is missing\n"), "")

    def test_wrong_words(self):
        for words in ((), ("spell",), ("show",), ("show", "--events", "--replies", "x"), ("show", "a", "b", "c", "d"),
                      ("show", "--events", "a", "b"), ("run",), ("run", "x", "--program"), ("run", "x", "y"),
                      ("run", "x", "--keep", "a", "--keep", "b"), ("run", "x", "--loud"), ("replay", "x")):
            with self.subTest(words):
                self.assertEqual(self.ends(tool(*words), 2, USAGE), "")

    def test_help_marks_what_the_program_answers(self):
        text = self.ends(tool("--help"), 0, "")
        for name in wire.SHAPES:
            self.assertRegex(text, rf"(?m)^{' ' if name in wire.LATER else '[*]'} {name.lower()}( |$)")

    def test_help_on_an_event(self):
        self.assertEqual(self.ends(tool("--help", "ReleaseBuffer"), 0, ""), """ReleaseBuffer is answered by the program
  conn         conn of 1 byte; may be left out
  tag          number of 4 bytes; may be left out
  client       number of 8 bytes
  frames       number of 4 bytes
  flags        discontinuity + silent + timestamperror; may be left out
  bytes        rest
S_OK answers no fields
example: releasebuffer client=$c1 frames=480 bytes=ramp
""")
        self.assertIn("example: seteventhandle client=$c1 handle=77\n",
                      self.ends(tool("--help", "SetEventHandle"), 0, ""))
        self.assertIn("  events       list of: client:u64 handle:u64\n",
                      self.ends(tool("--help", "TakeNotices"), 0, ""))
        self.assertIn("GetDuckRule comes with a later version\n", self.ends(tool("--help", "getduckrule"), 0, ""))
        self.ends(tool("--help", "getbufer"), 2, "no event is called 'getbufer'; did you mean getbuffer?\n")

    def test_the_examples_of_the_help_are_events(self):
        before = "activate endpoint=1 role=console\ninitialize client=1 shared 0 48000x2\nregister devices 0\n"
        for name, shape in wire.SHAPES.items():
            with self.subTest(name):
                text = self.ends(tool("--help", name), 0, "").splitlines()[-1]
                self.assertTrue(text.startswith(f"example: {name.lower()}"))
                *_, body = wire.bodies(spelled(before + text.removeprefix("example: ")))
                self.assertEqual(body[0], shape.kind)

    def test_a_file_that_is_not_there(self):
        self.ends(tool("spell", "no/such.script"), 2, "no/such.script: No such file or directory\n")

    def test_a_program_that_is_not_there(self):
        done = tool("run", "-", "--program", "no/program", stdin=b"period 1\n")
        self.assertEqual(self.ends(done, 2, "no/program: no program is there; ./first-run --proved builds it\n"), "")

    def test_run_of_a_program_that_stops(self):
        script = "add 1 render rate=48000 channels=1 name=x\ncall code=5 rest=00\nperiod 1\n"
        program = """#!/bin/sh
cat > /dev/null
printf '\\012\\0\\0\\0\\005\\0\\0\\0\\0\\0\\0\\0\\0\\0'
printf '\\001\\0\\377\\377\\002' > "$2/endpoint-1.pcm"
echo 'malformed at 37' >&2
exit 3
"""
        lines = """add endpoint=1 flow=render format=48000x1 name="x"
    S_OK
0301010000000500 (4 bytes are wanted and 1 are left)
    no reply
period endpoint=1
    no reply
endpoint-1.pcm: 5 bytes, 2 frames of 1 channels: 1 | -1
"""
        said = "replies: none to 2 events\nmalformed at 37\nexit status 3\n"
        self.assertEqual(self.ends(run_program(program, script), 3, said), lines)

    def test_replies_that_are_malformed_or_too_few(self):
        reply = "printf '\\012\\0\\0\\0\\007\\0\\0\\0\\0\\0\\0\\0\\0\\0'\n"
        wrong = [("", "none to 1 events"), (reply * 2, "more than events"),
                 ("printf '\\005'", "4 bytes are wanted and 1 are left"),
                 (reply.replace("007", "010"), "kind 8 is not from 1 to 7")]
        self.ends(run_program("#!/bin/sh\ncat > /dev/null\n" + reply, "shutdown\n"), 0, "")
        for program, fault in wrong:
            with self.subTest(fault):
                self.ends(run_program("#!/bin/sh\ncat > /dev/null\n" + program, "shutdown\n"), 3,
                          f"replies: {fault}\n")

    def test_a_program_that_is_killed(self):
        done = run_program("#!/bin/sh\nkill -9 $$\n", "shutdown\n")
        self.ends(done, 3, "replies: none to 1 events\nexit status -9\n")

    def test_a_broken_pipe(self):
        reader, writer = os.pipe()
        os.close(reader)
        command = [sys.executable, str(TOOLS / "events"), "spell", "-"]
        done = subprocess.run(command, input=b"period 1\n", stdout=writer, stderr=subprocess.PIPE)
        os.close(writer)
        self.assertEqual((done.returncode, done.stderr), (2, b"standard output: Broken pipe\n"))


if __name__ == "__main__":
    unittest.main()
