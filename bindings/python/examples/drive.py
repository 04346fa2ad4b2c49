"""docs/USING.md's example: packets are sent, some PDUs are lost, and the log is read."""

import os
import sys

sys.path.insert(0, os.path.join(os.path.dirname(os.path.abspath(__file__)), ".."))
import barzhilup  # noqa: E402

packets = [bytes([k]) * 100 for k in range(20)]
writer = barzhilup.Writer(mode=0, stream=barzhilup.CORE)
sent = list(writer.write_all(packets, length=256, psd=b"PSD"))
came = [b"" if place in (3, 4) else pdu for place, pdu in enumerate(sent)]  # an empty record is a lost PDU

receiver = barzhilup.Receiver(mode=0, stream=barzhilup.CORE)
for logged in receiver.log(came):
    for note in logged.log.notes():
        print("PDU {}: {}".format(logged.place, note.cause.text))
    assert all(packet.data == packets[packet.number] for packet in logged.log.packets())
print("delivered {}, missing {}".format(receiver.delivered, receiver.missing))
