"""Tests of what `bench` measures: its inputs are whole events, as many as it says, and its floors copy what moves."""
import shutil
import tempfile
import unittest
from pathlib import Path

import wire
from load_tool import load_tool

bench = load_tool("bench")


class Bench(unittest.TestCase):
    def setUp(self):
        folder = tempfile.TemporaryDirectory()
        self.addCleanup(folder.cleanup)
        self.folder = Path(folder.name)

    def events(self, source):
        data = source.path.read_bytes()
        self.assertEqual(len(data), source.size)
        events = [wire.read_event(body) for body in wire.bodies(data)]
        self.assertEqual(len(events), source.events)
        return events

    def test_small_events(self):
        source = bench.small_events(self.folder / "events", 100)
        names = [event.name for event in self.events(source)]
        self.assertEqual(names, ["Add", "Open", "Activate", "Initialize", "Start"]
                         + (["GetBuffer", "ReleaseBuffer"] * 10 + ["Period"]) * 4)
        self.assertEqual(source.played, 4 * 1920)

    def test_bulk_data(self):
        for rate, channels, frames in (48000, 2, 4800), (96000, 4, 9600):
            with self.subTest(rate):
                size = frames * channels * 2
                source = bench.bulk_data(self.folder / "events", 3 * size + 1, rate, channels)
                events = self.events(source)[5:]
                names = ["GetBuffer", "ReleaseBuffer"] + ["Period"] * 10
                self.assertEqual([event.name for event in events], names * 3)
                self.assertEqual([len(event.values["bytes"]) for event in events[1::12]], [size] * 3)
                self.assertEqual(source.played, 3 * size)

    def test_streams(self):
        for count in bench.STREAMS:
            with self.subTest(count):
                source = bench.streams(self.folder / "events", count, 3)
                names = [event.name for event in self.events(source)]
                self.assertEqual(names, ["Add", "Open"] + ["Activate", "Initialize", "Start"] * count
                                 + (["GetBuffer", "ReleaseBuffer"] * count + ["Period"]) * 3)
                self.assertEqual(source.played, 3 * 1920)

    def test_exclusive(self):
        source = bench.exclusive(self.folder / "events", 3)
        events = self.events(source)
        self.assertEqual([event.values["share"] for event in events if event.name == "Initialize"], [1])
        names = [event.name for event in events[5:]]
        self.assertEqual(names, ["GetBuffer", "ReleaseBuffer", "Period"] * 3)
        self.assertEqual(source.played, 3 * 1920)

    def test_streams_with_gains(self):
        source = bench.streams(self.folder / "events", 64, 1, levels=True)
        events = self.events(source)
        levels = {(event.values["client"], event.values["level"]) for event in events if event.name == "SetStreamLevel"}
        self.assertEqual(len(levels), 128)
        self.assertEqual([event.name for event in events[2:7]],
                         ["Activate", "Initialize", "Start", "SetStreamLevel", "SetStreamLevel"])
        self.assertEqual(source.played, 1920)

    def test_levels(self):
        source = bench.levels(self.folder / "events", 5, 2)
        names = [event.name for event in self.events(source)]
        self.assertEqual(names[5:], (["SetMaster"] * 5 + ["Period"]) * 2)
        self.assertEqual(source.played, 2 * 1920)

    def test_recorders(self):
        for count in bench.STREAMS:
            with self.subTest(count):
                source = bench.recorders(self.folder / "events", count, 3)
                events = self.events(source)
                names = [event.name for event in events]
                self.assertEqual(names, ["Add", "Open"] + ["Activate", "Initialize", "Start"] * count
                                 + (["Period"] + ["CaptureGetBuffer", "CaptureReleaseBuffer"] * count) * 3)
                self.assertEqual([event.values["client"] for event in events[-2 * count::2]],
                                 list(range(1, count + 1)))
                self.assertEqual((events[0].values["flow"], source.played, len(source.device)), (1, 0, 3 * 1920))

    def test_listeners(self):
        source = bench.listeners(self.folder / "events", 8, 3)
        events = self.events(source)
        names = ["GetBuffer", "ReleaseBuffer", "Period"] + ["CaptureGetBuffer", "CaptureReleaseBuffer"] * 7
        self.assertEqual([event.name for event in events[2 + 3 * 8:]], names * 3)
        flags = [event.values["flags"] for event in events if event.name == "Initialize"]
        self.assertEqual(flags, [0] + [wire.NAMES["stream_flags"]["loopback"]] * 7)
        self.assertEqual((source.played, source.device), (3 * 1920, b""))

    def test_lone_periods(self):
        put, emptied = ["GetBuffer", "ReleaseBuffer"] * 64, ["Stop"] * 64 + ["Reset"] * 64 + ["Start"] * 64
        for recorded, played, given in (False, 6 * 1920, 0), (True, 0, 6 * 1920):
            with self.subTest(recorded):
                source = bench.lone_periods(self.folder / "events", 2, 3, recorded)
                names = [event.name for event in self.events(source)]
                one = put * (not recorded) + ["Period"] * 3 + emptied
                self.assertEqual(names[2 + 3 * 64:], one * 2)
                self.assertEqual((source.played, len(source.device)), (played, given))

    def test_a_device_is_laid_into_the_folder(self):
        source = bench.recorders(self.folder / "events", 1, 2)
        bench.lay_device(source, self.folder / "run")
        self.assertEqual((self.folder / "run/endpoint-1.pcm").read_bytes(), source.device)

    def test_disconnects(self):
        for unplugged in (False, True):
            source = bench.disconnects(self.folder / "events", 2, unplugged)
            names = [event.name for event in self.events(source)]
            state = ["SetState"] * unplugged
            one = ["Open"] + ["Activate", "Initialize", "Start"] * 64 + state + ["Hangup"] + state
            self.assertEqual(names, ["Add"] + one * 2 + ["Period"])

    def test_notices(self):
        for taken in (False, True):
            source = bench.notices(self.folder / "events", 2, taken)
            names = [event.name for event in self.events(source)]
            one = ["SetChannel"] * 256 + ["TakeNotices"] * taken
            self.assertEqual(names[5:], ["Register"] + one * 2 + ["Period"])

    def assert_floors_copy(self, source, data):
        for name, run in bench.runners_of("none", source).items():
            if name != "program":
                self.assertGreater(run(self.folder / name), 0)
                self.assertEqual((self.folder / name / "copy").read_bytes(), data)
                shutil.rmtree(self.folder / name)

    def test_the_floors_copy_the_input_or_the_replies(self):
        source = bench.small_events(self.folder / "events", 100)
        self.assert_floors_copy(source, source.path.read_bytes())
        source = bench.recorders(self.folder / "events", 1, 2)
        source.moved.write_bytes(b"replies")
        self.assert_floors_copy(source, b"replies")


if __name__ == "__main__":
    unittest.main()
