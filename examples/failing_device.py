"""A device fails in the middle of a period: what the player is told, and what the device has."""
import pehvonk

events = pehvonk.Events()
events.Add(endpoint=1, flow="render", format="8000x1", name="Speakers")
events.Open(conn=1, pid=10, name="player")
client = events.Activate(endpoint=1, role="console")
session = events.Initialize(client=client, share="shared", duration="1s", format="8000x1")
events.Register(class_="session", subject=session)
events.GetBuffer(client=client, frames=160)
events.ReleaseBuffer(client=client, frames=160, bytes=b"\x07\0" * 160)
events.Start(client=client)
first, second = events.Period(endpoint=1), events.Period(endpoint=1)
padding = events.GetCurrentPadding(client=client)
notices = events.TakeNotices(max=10)

run = events.run(fail=(1, 2, 100))  # of endpoint 1, the second write takes 100 bytes of 160, and fails
assert run.replies[first].outcome == "done"
assert run.replies[second].outcome == "failed"
assert run.replies[padding].result == "DEVICE_INVALIDATED"
assert list(run.devices[1].samples) == [7] * (80 + 50)
for notice in run.replies[notices].notices:
    print(notice["notice"], notice["value"])
