"""The translation of addresses between real clients and those of a schedule (RFC 3022). tools/live stands on it.

A client of a schedule has one connection, from port 40000 of its own address. A real one has an address and a port, and a
connection after the other on them. So each new end, an address and a port, stands for the next client of the schedule, from
its SYN on. A segment's checksum is changed by what changed in the segment, and not made anew: a wrong one stays wrong.
"""
import socket
import struct

CLUSTER, CLUSTER_PORT, CLIENT_PORT = "10.0.0.1", 80, 40000
CLUSTER_END = socket.inet_aton(CLUSTER) + struct.pack("!H", CLUSTER_PORT)
MOST_CLIENTS = 16384        # the numbers of a schedule
FIN, SYN, RST, ACK = 1, 2, 4, 16


# ---- packets

def address_of(client):
    return "10.1.%d.%d" % divmod(client, 256)


def end_of(client):
    """The end of a client of the schedule: its address, and its port."""
    return socket.inet_aton(address_of(client)) + struct.pack("!H", CLIENT_PORT)


def named(end):
    """An end as one reads it: 10.1.0.1:51234."""
    return "%s:%d" % (socket.inet_ntoa(end[:4]), struct.unpack("!H", end[4:])[0])


def words_of(data):
    return struct.unpack("!%dH" % (len(data) // 2), data)


def ones_sum(data):
    """The one's complement of the one's complement sum of words of 16 bits (RFC 1071)."""
    return 65535 - sum(words_of(data)) % 65535


def change_of(old, new):
    """What a checksum changes by where of what it sums `old` becomes `new`."""
    return sum(words_of(old)) - sum(words_of(new))


def changed_sum(checksum, change):
    """A checksum that is changed, and not made anew (RFC 1624, 3, whose sums with carries are those modulo 65,535)."""
    if checksum == b"\xff\xff":
        return checksum         # never right, since what is summed is never 0; and as a number it is the 0 that may be right
    return struct.pack("!H", (words_of(checksum)[0] + change) % 65535)


def is_tcp(packet):
    return len(packet) >= 20 and packet[0] >> 4 == 4 and packet[9] == socket.IPPROTO_TCP


def segment_of(packet):
    """The segment in an IP packet to the cluster (RFC 791, 3.1); or nothing, if there is none, or only a part."""
    if not is_tcp(packet) or words_of(packet[6:8])[0] & 0x3FFF or packet[16:20] != CLUSTER_END[:4]:
        return None
    segment = packet[4 * (packet[0] & 15):words_of(packet[2:4])[0]]
    return segment if 20 <= len(segment) <= 1520 and segment[2:4] == CLUSTER_END[4:] else None


def packet_of(end, segment):
    """The IP packet that brings a segment from the cluster to this end."""
    ends = CLUSTER_END[:4] + end[:4]
    header = struct.pack("!BBHHHBBH", 0x45, 0, 20 + len(segment), 0, 0x4000, 64, socket.IPPROTO_TCP, 0) + ends
    return header[:10] + struct.pack("!H", ones_sum(header)) + header[12:] + segment


def is_plain_syn(segment):
    return segment[13] & (FIN | SYN | RST | ACK) == SYN


# ---- clients

class Client:
    """A client of the schedule: the end that it stands for, and how far its connection is."""

    def __init__(self, number, end):
        self.number, self.end, self.own = number, end, end_of(number)
        self.change = change_of(end, self.own)          # of a checksum, where the one end becomes the other
        self.places = []                # those that took the connection, in order
        self.acked = None               # up to where the client acknowledged
        self.expected = None            # the number that the cluster waits for, which it told last
        self.closed = {}                # of each side that closed: the number behind its FIN
        self.was_reset = False

    def says(self, segment):
        """A segment of the client came to the cluster. Whether it acknowledges more than those before."""
        seq, ack, flags, behind = fields_of(segment)
        if flags & RST and seq == self.expected:        # any other is not taken (RFC 9293, 3.10.7.4)
            self.was_reset = True
        if flags & FIN:
            self.closed["client"] = behind
        is_more = flags & ACK and 0 < (ack - self.acked) % 2**32 < 2**31
        if is_more:
            self.acked = ack
        return is_more

    def hears(self, segment):
        """The cluster sent a segment to the client."""
        _, ack, flags, behind = fields_of(segment)
        if flags & RST:
            self.was_reset = True
        if flags & FIN:
            self.closed["cluster"] = behind
        if flags & ACK:
            self.expected = ack

    @property
    def is_over(self):
        """The front end took the connection back; or it has it still, and one side reset it, or both closed it."""
        if len(self.places) != 1:
            return self.places[-1:] == ["front"]
        return self.was_reset or self.closed == {"client": self.expected, "cluster": self.acked}


def fields_of(segment):
    """A segment's sequence number, acknowledgement number, control bits, and the number behind it."""
    seq, ack, offset, flags = struct.unpack("!4xIIBB", segment[:14])
    length = len(segment) - 4 * (offset >> 4) + bool(flags & SYN) + bool(flags & FIN)
    return seq, ack, flags, (seq + length) % 2**32


class Translation:
    """Which end stands for which client, and what becomes of packets on both ways."""

    def __init__(self):
        self.clients = []               # in the order of their numbers, from 1
        self.at = {}                    # of each end: the client for which it stands now
        self.strays = 0                 # TCP packets that are no segment of a connection to the cluster
        self.unnumbered = 0             # SYNs for which no number was left

    def inwards(self, packet):
        """The client that a packet to the cluster stands for, and its segment; or nothing, where it is dropped."""
        segment = segment_of(packet)
        client = segment and self.client_at(packet[12:16] + segment[:2], is_plain_syn(segment))
        if not client:
            self.strays += segment is None and is_tcp(packet)
            return None
        return client, client.own[4:] + segment[2:16] + changed_sum(segment[16:18], client.change) + segment[18:]

    def client_at(self, end, is_syn):
        """The client for which an end stands: by its SYN the next one, unless it has a connection that goes on."""
        client = self.at.get(end)
        if is_syn and (client is None or client.is_over):
            if len(self.clients) == MOST_CLIENTS:
                self.unnumbered += 1
                return None
            client = self.at[end] = Client(len(self.clients) + 1, end)
            self.clients.append(client)
        self.strays += client is None
        return client

    def outwards(self, number, segment):
        """The IP packet that brings a segment of the cluster to the end that stands for this client."""
        client = self.clients[number - 1]
        changed = segment[:2] + client.end[4:] + segment[4:16] + changed_sum(segment[16:18], -client.change) + segment[18:]
        return packet_of(client.end, changed)
