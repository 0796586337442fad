"""Tests of `pehvonk.py`: lists of events, and runs of the built program.

The program is PEHVONK_PROGRAM, or the one that the repository's gate or ./first-run --proved leaves.
"""
import array
import os
import subprocess
import sys
import tempfile
import unittest
from pathlib import Path

import pehvonk
import wire
from test_examples import PROGRAM

PCM = wire.format_bytes(8000, 1)


def player():
    """A player on a mono endpoint of 8,000 Hz, whose period has 80 frames; and the place of its Activate."""
    events = pehvonk.Events()
    events.Add(endpoint=1, flow="render", format="8000x1", name="Speakers")
    events.Open(conn=1, pid=10, name="player")
    client = events.Activate(endpoint=1, role="console")
    events.Initialize(client=client, share="shared", duration="1s", format="8000x1")
    events.Start(client=client)
    return events, client


class Lists(unittest.TestCase):
    def test_fields_are_values_or_words(self):
        events = pehvonk.Events()
        place = events.Add(endpoint=1, flow="Render", format="8000x1", name="Speakers")
        events.add("add", {"endpoint": 1, "flow": 0, "format": PCM, "name": b"Speakers"})
        events.Register(class_="devices", subject=0)
        events.ReleaseBuffer(client=1, frames=2, bytes=array.array("h", [1, -1]))
        self.assertEqual(place, 0)
        self.assertEqual(events[0], events[1])
        self.assertEqual(events[2].values, {"conn": 1, "tag": 1, "class": 1, "subject": 0})
        self.assertEqual(events[3].values["bytes"], b"\1\0\xff\xff")
        self.assertEqual(events.spell()[-4:], b"\1\0\xff\xff")

    def test_what_cannot_be_written(self):
        events = pehvonk.Events()
        wrong = [(lambda: events.GetBufer(client=1), "no event is called 'GetBufer'; did you mean getbuffer?"),
                 (lambda: events.GetBuffer(client=1), "frames is missing"),
                 (lambda: events.GetBuffer(client=1, frame=1), "GetBuffer takes no 'frame'; did you mean frames?"),
                 (lambda: events.GetBuffer(client=1, frames=1.5), "frames: 1.5 is no u32"),
                 (lambda: events.GetBuffer(client=1, frames=2 ** 32), "4294967296 is not from 0 to 4294967295"),
                 (lambda: events.Open(conn=1, pid=1, name=5), "name: 5 is no text"),
                 (lambda: events.Release(client=1), "'release' may be releasebuffer (frames of a lease) or"
                                                    " releaseclient (the client goes)")]
        for add, fault in wrong:
            with self.subTest(fault):
                with self.assertRaises(ValueError) as caught:
                    add()
                self.assertEqual(str(caught.exception), fault)
        self.assertEqual(events, [])

    def test_sounds(self):
        samples = pehvonk.samples_of(bytes.fromhex("e803" "18fc" "0300" "fdff" "01"))
        self.assertEqual(list(samples), [1000, -1000, 3, -3])
        self.assertEqual(list(pehvonk.scaled(samples, "50%")), [500, -500, 1, -1])
        self.assertEqual(list(pehvonk.scaled(samples, 16384)), [250, -250, 0, 0])
        with tempfile.TemporaryDirectory() as folder:
            for name in ("sound.wav", "sound.raw"):
                pehvonk.write_frames(Path(folder, name), 8000, 1, samples.tobytes())
                self.assertEqual(pehvonk.read_frames(Path(folder, name), 8000, 1), samples.tobytes())


class Runs(unittest.TestCase):
    def test_replies_and_devices(self):
        events, client = player()
        events.GetBuffer(client=client, frames=2)
        events.ReleaseBuffer(client="$c1", frames=2, bytes=array.array("h", [5, -6]))
        period = events.Period(endpoint=1)
        run = events.run(PROGRAM)
        self.assertEqual((run.status, run.said, run.fault), (0, "", None))
        self.assertEqual(vars(run.replies[client]), {"event": "Activate", "result": "S_OK", "client": 1})
        self.assertEqual(vars(run.replies[period]),
                         {"event": "Period", "result": "S_OK", "frames": 80, "outcome": "done"})
        self.assertEqual(run.devices[1], pehvonk.Device(8000, 1, array.array("h", [5, -6] + [0] * 78)))

    def test_the_module_as_one_file(self):
        test = ("import pehvonk\nevents = pehvonk.Events()\n"
                "events.Add(endpoint=1, flow='render', format='8000x1', name='Speakers')\n"
                "period = events.Period(endpoint=1)\nprint(events.run().replies[period].frames)\n")
        with tempfile.TemporaryDirectory() as folder:
            tool = Path(__file__).resolve().with_name("events")
            Path(folder, "pehvonk.py").write_bytes(
                subprocess.run([sys.executable, str(tool), "module"], stdout=subprocess.PIPE, check=True).stdout)
            Path(folder, "test.py").write_text(test)
            done = subprocess.run([sys.executable, "test.py"], cwd=folder, capture_output=True, text=True,
                                  env={"PATH": os.environ["PATH"], "PEHVONK_PROGRAM": PROGRAM})
        self.assertEqual((done.stdout, done.stderr, done.returncode), ("80\n", "", 0))

    def test_numbers_are_those_of_the_replies(self):
        events, first = player()
        events.Activate(endpoint=9, role="console")
        second = events.Activate(endpoint=1, role="console")
        events.Initialize(client=second, share="shared", duration=0, format="8000x1")
        start, again = events.Start(client=second), events.Start(client="$c1")
        run = events.run(PROGRAM)
        self.assertEqual([run.replies[place].client for place in (first, second)], [1, 2])
        self.assertEqual([run.replies[place].result for place in (start, again)], ["S_OK", "NOT_STOPPED"])

    def test_a_number_that_was_not_given(self):
        events, _ = player()
        gone = events.Activate(endpoint=9, role="console")
        events.Start(client=gone)
        with self.assertRaises(pehvonk.Unresolved) as caught:
            events.run(PROGRAM)
        self.assertEqual((caught.exception.place, str(caught.exception)),
                         (6, "event 6: event 5 was given no number; Activate was answered E_NOTFOUND"))

    def test_bytes_in_place_of_an_event(self):
        events, _ = player()
        events.append(wire.spell("Period", endpoint=1) * 2)
        stop = events.Stop(client=1)
        run = events.run(PROGRAM)
        self.assertEqual([run.replies[place].event for place in (5, stop)], ["Period", "Stop"])
        events.append(bytes(4))
        last = events.Period(endpoint=1)
        run = events.run(PROGRAM)
        self.assertEqual((run.status, run.replies[stop].result, run.replies[last]), (3, "S_OK", None))
        self.assertRegex(run.said, "^malformed at [0-9]+\n$")

    def test_input_and_a_device_that_fails(self):
        events = pehvonk.Events()
        events.Add(endpoint=2, flow="capture", format="8000x1", name="Microphone")
        events.Open(conn=1, pid=10, name="recorder")
        client = events.Activate(endpoint=2, role="console")
        events.Initialize(client=client, share="shared", duration=0, format="8000x1")
        events.Start(client=client)
        events.Period(endpoint=2)
        packet = events.CaptureGetBuffer(client=client)
        run = events.run(PROGRAM, {2: array.array("h", range(100))})
        self.assertEqual(list(pehvonk.samples_of(run.replies[packet].bytes)), list(range(80)))
        with self.assertRaises(pehvonk.CannotFail):
            events.run(PROGRAM, fail=(2, 1, 0))

    def test_event_flags(self):
        events = pehvonk.Events()
        events.Add(endpoint=1, flow="render", format="8000x1", name="Speakers")
        events.Open(conn=1, pid=10, name="player")
        clients = [events.Activate(endpoint=1, role="console") for _ in range(2)]
        for handle, client in enumerate(clients, 77):
            events.Initialize(client=client, share="shared", flags="eventcallback", duration=0, format="8000x1")
            events.SetEventHandle(client=client, handle=handle)
            events.Start(client=client)
        events.Period(endpoint=1)
        first, second = events.TakeNotices(max=0), events.TakeNotices(max=0)
        run = events.run(PROGRAM)
        self.assertEqual(run.replies[first].events, [{"client": 1, "handle": 77}, {"client": 2, "handle": 78}])
        self.assertEqual(run.replies[second].events, [])

    def test_a_program_whose_replies_differ(self):
        with tempfile.TemporaryDirectory() as folder:
            program = Path(folder, "program")
            program.write_text("#!/bin/sh\ncat > /dev/null\nn=$(cat \"$0.n\")\necho $((n + 1)) > \"$0.n\"\n"
                               "printf '\\022\\0\\0\\0\\003\\001\\001\\0\\0\\0\\0\\0\\0\\0'\n"
                               "printf \"\\\\$(printf %03o $n)\\\\0\\\\0\\\\0\\\\0\\\\0\\\\0\\\\0\"\n")
            program.chmod(0o755)
            Path(f"{program}.n").write_text("5")
            events = pehvonk.Events()
            events.Start(client=events.Activate(endpoint=1, role=0))
            with self.assertRaises(ValueError) as caught:
                events.run(program)
            self.assertEqual(str(caught.exception), "the replies to the same events differ from run to run")


if __name__ == "__main__":
    unittest.main()
