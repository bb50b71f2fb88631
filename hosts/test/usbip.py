"""A client of USB/IP 1.1.1, as strict as the kernel's: a reply that answers nothing pending is an error."""

import socket
import struct

OUT, IN = 0, 1
HEADER_LEN = 48
DESCRIPTOR = struct.Struct(">IIIi")     # of a packet: offset, length, actual_length, status


class Disorder(Exception):
    """The host sent what no client can make sense of."""


class Returned:
    """What came of a submit: its status, actual length, error count and data, and the descriptors of its packets."""

    def __init__(self, header, data, packets):
        self.seqnum, self.status, self.actual, self.errors = (header[i] for i in (1, 5, 6, 9))
        self.data, self.packets = data, packets


class Pending:
    """A submit: what its reply must repeat, and whether data comes with it."""

    def __init__(self, direction, start, packets):
        self.direction, self.start, self.packets = direction, start, packets


def device_record(record):
    """A device record of 312 bytes, as a dictionary."""
    path, busid, busnum, devnum, speed, vendor, product = struct.unpack_from(">256s32sIIIHH", record)
    return {
        "path": path.rstrip(b"\0").decode(), "busid": busid.rstrip(b"\0").decode(), "busnum": busnum, "devnum": devnum,
        "speed": speed, "id": f"{vendor:04x}:{product:04x}", "interfaces": record[311],
    }


class Client:
    def __init__(self, port):
        self.socket = socket.create_connection(("127.0.0.1", port))
        self.socket.setsockopt(socket.IPPROTO_TCP, socket.TCP_NODELAY, 1)
        self.socket.settimeout(5)
        self.devid = 0
        self.seqnum = 0
        self.pending = {}   # by seqnum
        self.unlinks = {}   # seqnum to cancel, by the unlink's own
        self.returned = {}
        self.unlinked = {}

    def close(self):
        self.socket.close()

    def send(self, data):
        self.socket.sendall(data)

    def receive(self, count):
        data = bytearray()
        while len(data) < count:
            piece = self.socket.recv(count - len(data))
            if not piece:
                raise EOFError
            data += piece
        return bytes(data)

    def gone(self):
        """The host hung up, without another byte."""
        try:
            return self.socket.recv(1) == b""
        except ConnectionResetError:
            return True

    def list(self):
        self.send(struct.pack(">HHI", 0x0111, 0x8005, 0))
        head = struct.unpack(">HHII", self.receive(12))
        devices = []
        for _ in range(head[3]):
            devices.append(device_record(self.receive(312)))
            devices[-1]["classes"] = [tuple(self.receive(4)) for _ in range(devices[-1]["interfaces"])]
        return head[:3], devices

    def attach(self, busid):
        """Imports a device; answers the reply's status, and the device if it is 0."""
        self.send(struct.pack(">HHI32s", 0x0111, 0x8003, 0, busid.encode()))
        _, _, status = struct.unpack(">HHI", self.receive(8))
        device = device_record(self.receive(312)) if status == 0 else None
        if device:
            self.devid = device["busnum"] << 16 | device["devnum"]
        return status, device

    def next_seqnum(self):
        self.seqnum += 1
        return self.seqnum

    def submit(self, direction, ep, length, data=b"", setup=bytes(8), seqnum=None, packets=(), flags=0, devid=None):
        """A submit; an isochronous one has packets, an offset and a length each."""
        seqnum = self.next_seqnum() if seqnum is None else seqnum
        start = seqnum if packets else 0
        header = struct.pack(">10I8s", 1, seqnum, self.devid if devid is None else devid, direction, ep, flags, length,
                             start, len(packets), 0, setup)
        self.pending[seqnum] = Pending(direction, start, packets)
        self.returned.pop(seqnum, None)
        self.send(header + data + b"".join(DESCRIPTOR.pack(offset, count, 0, 0) for offset, count in packets))
        return seqnum

    def unlink(self, victim):
        seqnum = self.next_seqnum()
        self.unlinks[seqnum] = victim
        self.send(struct.pack(">6I24x", 2, seqnum, self.devid, 0, 0, victim))
        return seqnum

    def reply(self):
        """Takes the next reply."""
        header = struct.unpack(">5Ii6I", self.receive(HEADER_LEN))
        command, seqnum = header[:2]
        if header[2:5] != (0, 0, 0) or header[10:] != (0, 0):
            raise Disorder(f"header {header}")
        if command == 3 and seqnum in self.pending:
            self.take_return(header, self.pending.pop(seqnum))
        elif command == 4 and seqnum in self.unlinks:
            self.take_unlink(seqnum, header[5])
        else:
            raise Disorder(f"command {command} seqnum {seqnum}")
        return seqnum

    def take_return(self, header, submit):
        """Data for IN, then the packets' descriptors: those that were sent, with lengths that make up the whole."""
        seqnum, actual, start, count = (header[i] for i in (1, 6, 7, 8))
        if (start, count) != (submit.start, len(submit.packets)):
            raise Disorder(f"start {start}, {count} packets of {seqnum}")
        data = self.receive(actual) if submit.direction == IN else b""
        packets = [DESCRIPTOR.unpack(self.receive(DESCRIPTOR.size)) for _ in submit.packets]
        if [packet[:2] for packet in packets] != list(submit.packets):
            raise Disorder(f"packets of {seqnum}: {packets}")
        if packets and sum(packet[2] for packet in packets) != actual:
            raise Disorder(f"actual lengths of {seqnum}: {packets}, {actual} in all")
        self.returned[seqnum] = Returned(header, data, packets)

    def take_unlink(self, seqnum, status):
        """-104: its submit is never answered. 0: it was answered before, so nothing is pending under that number."""
        victim = self.unlinks.pop(seqnum)
        if (status == -104) != (victim in self.pending):
            raise Disorder(f"unlink of {victim} says {status}")
        self.pending.pop(victim, None)
        self.unlinked[victim] = status

    def wait(self, seqnum):
        """Takes replies until a submit is answered."""
        while seqnum not in self.returned:
            self.reply()
        return self.returned.pop(seqnum)

    def data(self, seqnum):
        """The data of a submit that went well."""
        returned = self.wait(seqnum)
        if returned.status != 0:
            raise Disorder(f"status {returned.status} of {seqnum}")
        return returned.data

    def bulk_in(self, ep, length):
        return self.wait(self.submit(IN, ep, length))

    def bulk_out(self, ep, data):
        return self.wait(self.submit(OUT, ep, len(data), data))

    def control_in(self, kind, request, value, index, length, flags=0):
        setup = struct.pack("<BBHHH", kind, request, value, index, length)
        return self.wait(self.submit(IN, 0, length, setup=setup, flags=flags))

    def control_out(self, kind, request, value, index, data=b""):
        setup = struct.pack("<BBHHH", kind, request, value, index, len(data))
        return self.wait(self.submit(OUT, 0, len(data), data, setup))
