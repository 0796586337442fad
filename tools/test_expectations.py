"""Scripts that say what is expected, on the built program: what holds, what fails and what is said of it.

The program is PEHVONK_PROGRAM, or the one that the repository's gate or ./first-run --proved leaves.
"""
import json
import tempfile
import unittest
import wave
from pathlib import Path

from load_tool import load_tool, run_main
from pehvonk import read_frames, samples_of
from test_examples import PROGRAM

events = load_tool("events")

# a player on a mono endpoint of 8,000 Hz, whose period has 80 frames
PLAYER = """add 1 render rate=8000 channels=1 name=Speakers
open 1 pid=10 name=player
activate endpoint=1 role=console
initialize client=$c1 shared duration=1s format=8000x1
start client=$c1
"""
# the same, driven by events
DRIVEN = """add 1 render rate=8000 channels=1 name=Speakers
open 1 pid=10 name=player
activate endpoint=1 role=console
initialize client=$c1 shared flags=eventcallback duration=1s format=8000x1
seteventhandle client=$c1 handle=0x4d
start client=$c1
"""
PLAYED = """getbuffer client=$c1 frames=4
releasebuffer client=$c1 frames=4 bytes=e80318fc0300fdff
period 1
"""  # the samples 1000, -1000, 3 and -3


class Scripts(unittest.TestCase):
    def setUp(self):
        folder = tempfile.TemporaryDirectory()
        self.addCleanup(folder.cleanup)
        self.folder = Path(folder.name)

    def run_script(self, text, *options):
        """The status, the lines of standard output, and standard error without the script's folder."""
        (self.folder / "script").write_text(text)
        words = ("run", str(self.folder / "script"), "--program", PROGRAM, *options)
        status, out, said = run_main(events, words)
        return status, out.splitlines(), said.replace(f"{self.folder}/", "")

    def holds(self, text, *options):
        status, lines, said = self.run_script(text, *options)
        self.assertEqual((status, said), (0, ""))
        return lines

    def fails(self, text, line, status=1):
        done = self.run_script(text)
        self.assertEqual((done[0], done[2]), (status, line + "\n"))

    def wav(self, name, samples, rate=8000, channels=1):
        with wave.open(str(self.folder / name), "wb") as out:
            out.setparams((channels, 2, rate, 0, "NONE", ""))
            out.writeframes(b"".join((sample & 0xFFFF).to_bytes(2, "little") for sample in samples))


class Replies(Scripts):
    def test_results_and_fields(self):
        self.holds("add 1 render rate=8000 channels=1 name=Speakers\nexpect s_ok\nopen 1 pid=10 name=player\n"
                   "activate endpoint=9 role=console\nexpect E_NOTFOUND\nexpect 0x80070490\n"
                   "getdevice endpoint-1\nexpect S_OK endpoint=1\n"
                   "deviceinfo 1\nexpect S_OK flow=render state=active format=8000x1 name=Speakers\n"
                   "enumendpoints render active\nexpect S_OK endpoints=[1]\n"
                   "activate endpoint=1 role=console\nstart client=$c\nexpect AUDCLNT_E_NOT_INITIALIZED\n")

    def test_levels_and_notices(self):
        self.holds(PLAYER + "register devices 0\nregister session $s1\nsetmaster session=$s1 level=25%\n"
                   "getsession $s1\nexpect S_OK level=25% levels=[100%] state=active grouping=null\n"
                   "setstate 1 unplugged\ntakenotices max=10\n"
                   "expect S_OK lost=0 events=[] notices=[notice=simple_volume value=32768, "
                   "notice=device_state value=8, notice=default_changed subject=0, notice=default_changed subject=1, "
                   "notice=default_changed subject=2, notice=disconnected value=0, notice=session_state]\n")

    def test_event_flags(self):
        self.holds(DRIVEN + "takenotices max=0\nexpect S_OK events=[]\nperiod 1\ntakenotices max=0\n"
                   "expect S_OK events=[handle=77]\ntakenotices max=0\nexpect S_OK events=[] lost=0 notices=[]\n")
        self.fails(DRIVEN + "period 1\ntakenotices max=0\nexpect S_OK events=[client=1 handle=78]\n",
                   "script:9: expected S_OK events=[client=1 handle=78], and came S_OK events=[client=1 handle=77]"
                   " (to event 8)")

    def test_exclusive_use(self):
        self.holds(PLAYER + "register devices 0\ndeviceinfo 1\nexpect S_OK allow=1 priority=1\n"
                   "setexclusive 1 0 1\nexpect S_OK\ndeviceinfo 1\nexpect S_OK allow=0 priority=1\n"
                   "setexclusive 1 1 2\nexpect E_INVALIDARG\ntakenotices max=10\n"
                   "expect S_OK notices=[notice=device_property subject=1 value=3]\n"
                   "getcurrentpadding client=$c1\nexpect S_OK\n")

    def test_another_result(self):
        self.fails("start client=1\nexpect S_OK\n", "script:2: expected S_OK, and came E_HANDLE (to event 1)")

    def test_another_field(self):
        self.fails(PLAYER + "period 1\nexpect S_OK frames=81 outcome=done\n",
                   "script:7: expected S_OK frames=81 outcome=done, and came S_OK frames=80 (to event 6)")

    def test_each_event_of_a_repeated_line(self):
        self.fails(PLAYER + "stop client=$c1 x2\nexpect S_OK\n",
                   "script:7: expected S_OK, and came S_FALSE (to event 7)")

    def test_an_expectation_outweighs_the_programs_status(self):
        status, _, said = self.run_script("period 1\nraw 00000000\nexpect S_OK\n")
        self.assertEqual((status, said.splitlines()[-3:]), (1, [
            "malformed at 9", "exit status 3", "script:3: expected S_OK, and came no reply (to event 2)"]))
        self.fails("period 1\nraw 00000000\n", "events: length 0 is not from 1 to 4194304\n"
                   "malformed at 9\nexit status 3", 3)

    def test_at_most_ten_are_told(self):
        status, _, said = self.run_script("period 1 x12\nexpect S_OK\n")
        self.assertEqual((status, len(said.splitlines()), said.splitlines()[-1]), (1, 11, "and 2 more"))

    def test_what_cannot_be_expected(self):
        wrong = [("expect S_OK frame=80", "7:13: Period with S_OK answers no 'frame'; did you mean frames?"),
                 ("expect S_OK outcome=dune", "7:13: outcome: 'dune' is no outcome: done, failed; did you mean done?"),
                 ("expect E_HANDLE frames=0", "7:17: Period with E_HANDLE answers no 'frames'"),
                 ("expect S_OK 80", "7:13: '80' is no FIELD=VALUE of a reply to an event before it")]
        for line, fault in wrong:
            with self.subTest(line):
                self.fails(f"{PLAYER}period 1\n{line}\n", f"script:{fault}", 2)

    def test_packets(self):
        self.wav("in.wav", range(100, 200))
        self.holds("add 2 capture rate=8000 channels=1 name=Microphone\ndevice 2 input=@in.wav\n"
                   "open 1 pid=10 name=recorder\nactivate endpoint=2 role=console\n"
                   "initialize client=$c1 shared duration=0 format=8000x1\nstart client=$c1\nperiod 2 x2\n"
                   "capturegetbuffer client=$c1\nexpect S_OK frames=80 bytes=@in.wav\n"
                   "capturereleasebuffer client=$c1 frames=80\n"
                   "capturegetbuffer client=$c1\nexpect S_OK frames=80 position=80 bytes=@in.wav from=80\n")


class Devices(Scripts):
    def test_frames_of_a_device(self):
        self.wav("out.wav", [1000, -1000, 3, -3])
        self.wav("half.wav", [500, -500, 1, -1, 0])
        self.holds(PLAYER + PLAYED + "expect frames endpoint=1 @out.wav\nexpect frames endpoint=1 from=4 zeros\n"
                   "expect frames endpoint=1 from=3 frames=1 level=-3\n")
        self.holds(PLAYER + "setmaster session=$s level=50%\n" + PLAYED
                   + "expect frames endpoint=1 from=0 @half.wav\nexpect frames endpoint=1 from=0 @out.wav gain=50%\n")

    def test_other_frames(self):
        self.wav("out.wav", [1000, -1000, 3, -4])
        self.fails(PLAYER + PLAYED + "expect frames endpoint=1 @out.wav\n",
                   "script:9: endpoint 1, frame 3: expected -4, and came -3")
        self.fails(PLAYER + PLAYED + "expect frames endpoint=1 from=79 frames=2 zeros\n",
                   "script:9: endpoint 1, frame 80: expected 0, and came nothing, as the device has 80 frames")
        self.fails(PLAYER + PLAYED + "expect frames endpoint=1 from=80 zeros\n",
                   "script:9: expected frames from 80 on, and endpoint 1 has 80")
        self.fails(PLAYER + "expect frames endpoint=3 zeros\n",
                   "script:6: expected frames, and no endpoint 3 plays")

    def test_what_the_device_had_by_then(self):
        self.holds(PLAYER + PLAYED + "expect frames endpoint=1 from=1 frames=1 level=-1000\n"
                   "expect frames endpoint=1 from=4 zeros\ngetbuffer client=$c1 frames=80\n"
                   "releasebuffer client=$c1 frames=80 level=7\nperiod 1\nexpect frames endpoint=1 from=80 level=7\n")

    def test_a_file_is_read_on(self):
        self.wav("in.wav", range(1, 201))
        self.holds(PLAYER + "repeat 3 {\n  getbuffer client=$c1 frames=80\n"
                   "  releasebuffer client=$c1 frames=80 bytes=@in.wav\n  period 1\n}\n"
                   "expect frames endpoint=1 @in.wav\nexpect frames endpoint=1 from=200 zeros\n"
                   "getbuffer client=$c1 frames=80\nreleasebuffer client=$c1 frames=80 @in.wav from=199\nperiod 1\n"
                   "expect frames endpoint=1 from=240 frames=1 level=200\nexpect frames endpoint=1 from=241 zeros\n")

    def test_a_wav_file_of_another_format(self):
        self.wav("in.wav", range(80), rate=16000)
        self.fails(PLAYER + "getbuffer client=$c1 frames=80\nreleasebuffer client=$c1 frames=80 @in.wav\n",
                   "script:7: in.wav: 16000x1 of 16 bits, and not 8000x1 of 16", 2)
        self.fails("releasebuffer client=1 frames=80 bytes=@in.wav\n",
                   "script:1: the client has no stream whose format the file could have", 2)

    def test_files_that_are_not_there(self):
        for line, column in [("device 2 input=@no.wav", 10), ("releasebuffer 1 80 @no.wav", 20),
                             ("expect frames endpoint=1 @no.wav", 26)]:
            with self.subTest(line):
                self.fails(f"period 1\n{line}\n", f"script:2:{column}: no.wav: there is no such file", 2)

    def test_kept_files(self):
        kept = self.folder / "kept"
        self.holds(PLAYER + PLAYED, "--keep", str(kept))
        self.assertEqual(sorted(file.name for file in kept.iterdir()),
                         ["endpoint-1.pcm", "endpoint-1.wav", "events", "replies"])
        data = (kept / "endpoint-1.pcm").read_bytes()
        self.assertEqual(list(samples_of(data)), [1000, -1000, 3, -3] + [0] * 76)
        self.assertEqual(read_frames(kept / "endpoint-1.wav", 8000, 1), data)
        shown = run_main(events, ("show", str(kept / "events"), str(kept / "replies"), str(kept)))
        self.assertEqual(shown[1].splitlines(), self.holds(PLAYER + PLAYED))

    def test_json_of_a_run(self):
        lines = [json.loads(line) for line in self.holds(PLAYER + PLAYED, "--json")]
        self.assertEqual(lines[-2], {"event": {"event": "Period", "endpoint": 1},
                                     "reply": {"reply": "Period", "conn": 0, "tag": 0, "result": "S_OK", "frames": 80,
                                               "outcome": "done"}})
        self.assertEqual(lines[-1], {"device": 1, "bytes": 160, "frames": 80, "channels": 1})


class Variables(Scripts):
    def test_they_have_the_numbers_of_the_replies(self):
        lines = self.holds("open 1 pid=10 name=one\nopen 2 pid=11 name=two\nadd 1 render 8000x1 Speakers\n"
                           "activate endpoint=9 role=console\nactivate endpoint=1 role=console\n"
                           "activate conn=2 endpoint=1 role=console\nactivate endpoint=9 role=console\n"
                           "initialize client=$c1 shared 0 8000x1\ninitialize conn=2 client=$c2 shared 0 8000x1\n"
                           "initialize client=$c1 shared 0 8000x1\nexpect ALREADY_INITIALIZED\n"
                           "getsession $s1\nexpect S_OK process=10\ngetsession $s\nexpect S_OK process=11\n")
        self.assertIn("initialize conn=2 tag=6 client=2 share=shared flags=0 duration=0 period=0 format=8000x1"
                      " session=null", lines)

    def test_one_that_has_no_number(self):
        self.fails("open 1 pid=10 name=player\nactivate endpoint=9 role=console\nstart client=$c1\n",
                   "script:3: $c1: no call before it was given such a number; Activate was answered E_NOTFOUND", 2)
        self.fails("add 1 render 8000x1 Speakers\nopen 1 pid=10 name=player\nactivate endpoint=1 role=console\n"
                   "initialize client=$c1 shared 0 16000x1\nsetmaster session=$s1 level=50%\n",
                   "script:5: $s1: no call before it was given such a number; Initialize was answered"
                   " UNSUPPORTED_FORMAT", 2)
        self.fails("start client=$c2\nactivate conn=2 endpoint=1 role=console\n",
                   "script:1: $c2: no call before it was given such a number", 2)


class Failing(Scripts):
    FILLED = PLAYER + "getbuffer client=$c1 frames=320\nreleasebuffer client=$c1 frames=320 ramp\n"

    def test_a_device_that_fails(self):
        lines = self.holds(self.FILLED + "fail endpoint=1 call=3 taken=5\nperiod 1 x2\nexpect S_OK frames=80\n"
                           "period 1\nexpect S_OK frames=0 outcome=failed\nexpect frames endpoint=1 frames=162 ramp\n"
                           "start client=$c1\nexpect DEVICE_INVALIDATED\n")
        self.assertTrue(lines[-1].startswith("endpoint-1.pcm: 325 bytes, 162 frames of 1 channels: 0 | 1 | 2 | 3"))

    def test_one_that_takes_nothing(self):
        lines = self.holds(self.FILLED + "fail endpoint=1\nperiod 1\nexpect S_OK frames=0 outcome=failed\n")
        self.assertEqual(lines[-1], "endpoint-1.pcm: 0 bytes, 0 frames of 1 channels: ")

    def test_what_cannot_fail(self):
        wrong = [("fail endpoint=2", "script:6: no endpoint 2 plays, and only such a device can be made to fail"),
                 ("fail endpoint=1 call=3", "script:6: the device of endpoint 1 has 2 calls, and no call 3"),
                 ("fail endpoint=1 taken=160", "script:6: call 1 has 160 bytes, and can't fail after 160")]
        for line, fault in wrong:
            with self.subTest(line):
                self.fails(f"{PLAYER}{line}\nperiod 1 x2\n", fault, 2)
        other = "add 2 render rate=16000 channels=4 name=Other\n"
        self.holds(f"{PLAYER}{other}fail endpoint=1 call=20\nperiod 1 x19\nperiod 2\nexpect S_OK outcome=done\n"
                   "period 1\n")
        self.fails(f"{PLAYER}{other}fail endpoint=1 call=2\nperiod 1 x2\nperiod 2\n",
                   "script:7: endpoint 2 failed too, as its file grows as long", 2)


if __name__ == "__main__":
    unittest.main()
