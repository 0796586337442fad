"""Records a device of which the samples are made here, and shows that a recorder which is late loses a packet."""
import array

import pehvonk

given = array.array("h", range(400))  # five periods of 80 frames

events = pehvonk.Events()
events.Add(endpoint=1, flow="capture", format="8000x1", name="Microphone")
events.Open(conn=1, pid=10, name="recorder")
client = events.Activate(endpoint=1, role="communications")
events.Initialize(client=client, share="shared", duration=0, format="8000x1")  # room for two packets
events.Start(client=client)
packets = []
for periods in 3, 1, 1:
    for _ in range(periods):
        events.Period(endpoint=1)
    packets.append(events.CaptureGetBuffer(client=client))
    events.CaptureReleaseBuffer(client=client, frames=80)

run = events.run(inputs={1: given.tobytes()})
for packet in packets:
    reply = run.replies[packet]
    samples = pehvonk.samples_of(reply.bytes)
    print(f"position {reply.position}, flags {reply.flags}: {samples[0]} to {samples[-1]}")
    assert samples == given[reply.position:reply.position + 80]
assert [run.replies[packet].flags for packet in packets] == [0, 0, "discontinuity"]
