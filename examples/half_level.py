"""Plays a WAV file through a session at half level. Ends with 1 if the device got other samples."""
import sys
from pathlib import Path

import pehvonk

VOICE = Path(__file__).parent / "voice.wav"
sound = pehvonk.read_frames(VOICE, 8000, 1)

events = pehvonk.Events()
events.Add(endpoint=1, flow="render", format="8000x1", name="Speakers")
events.Open(conn=1, pid=10, name="player")
client = events.Activate(endpoint=1, role="multimedia")
session = events.Initialize(client=client, share="shared", duration="1s", format="8000x1")
events.SetMaster(session=session, level="50%")
frames = len(sound) // 2
events.GetBuffer(client=client, frames=frames)
events.ReleaseBuffer(client=client, frames=frames, bytes=sound)
events.Start(client=client)
for _ in range(6):
    events.Period(endpoint=1)

run = events.run()
played = run.devices[1].samples
expected = pehvonk.scaled(pehvonk.samples_of(sound), "50%")
expected.extend([0] * (6 * 80 - len(expected)))  # silence up to the end of the sixth period
print(f"session {run.replies[session].session}: {len(played)} samples, the loudest {max(played)}")
if played != expected:
    sys.exit("the device got other samples")
