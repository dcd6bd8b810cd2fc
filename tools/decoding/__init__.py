"""A decoder of what a link of EuroRadio carries, for the tools of the laboratory.

It is written from the standards' tables, apart from the proved program, so that each can be held against the other.

| Module | What it reads |
|---|---|
| framing | frames from flag to flag: ISO/IEC 13239, frame structure |
| controls | control fields at modulo 8 and 128: ISO/IEC 13239, elements of procedure |
| network | the block header of two octets: ITU-T T.70 |
| transport | TPDUs of class 2 and the messages cut into DT TPDUs: ITU-T X.224, clause 13 |
| safety | SaPDUs: UNISIG SUBSET-037, the safety layer |
| conversation | all of these over the frames of a link, both directions |
| sources | texts: what a drill prints, a trace or recording, a tap, what a relay prints |
| timing | how long T1 of a station ran, by the moments of frames: ISO/IEC 13239, time-out recovery |
| bits | what `euroradio bits` prints of each direction of a synchronous line |
| captures | reads captures in the formats pcapng and pcap, and writes those in pcapng |
| datalinks | what stands below TCP in a captured packet: link types, VLAN tags, IPv4 and IPv6 |
| tcp | TCP connections of a capture, put together: RFC 9293 |
| identities | ETCS numbers and the moment of a link, by its AU1 and AU2 |

Python's standard library is all that it needs.
"""
