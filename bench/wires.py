"""Machines that a bad network joins, for bench/lost.py: network namespaces without names, each with one address, and between them a wire that this
process carries packet by packet. It loses packets, holds them, hands them on in another order or twice, is cut, forgets connections, or forges
resets. What the kernel's netem does is so done where the kernel has none. It needs root and /dev/net/tun, and leaves nothing behind."""
import ctypes
import fcntl
import heapq
import itertools
import os
import random
import select
import struct
import subprocess
import threading
import time

import servers

NEW_NETWORK = 0x40000000  # CLONE_NEWNET
SET_INTERFACE, TUNNEL = 0x400454CA, 0x1001  # TUNSETIFF; IFF_TUN and IFF_NO_PI
LIBC = ctypes.CDLL(None, use_errno=True)
ACK, RST = 0x10, 0x04


def call(name, *given):
    if getattr(LIBC, name)(*given) != 0:
        raise OSError(ctypes.get_errno(), "%s: %s" % (name, os.strerror(ctypes.get_errno())))


class Machine:
    """A network of its own with one address."""

    def __init__(self, address):
        self.address, self.fault = address, None
        thread = threading.Thread(target=self.make)
        thread.start()
        thread.join()
        if self.fault:
            raise self.fault

    def make(self):
        """In a thread that stays in the new namespace until it ends."""
        try:
            call("unshare", NEW_NETWORK)
            self.space = os.open("/proc/thread-self/ns/net", os.O_RDONLY)
            self.end = os.open("/dev/net/tun", os.O_RDWR | os.O_NONBLOCK)
            fcntl.ioctl(self.end, SET_INTERFACE, struct.pack("16sH22x", b"wire", TUNNEL))
            for words in ("link set lo up", "address add %s/24 dev wire" % self.address, "link set wire up mtu 1400"):
                subprocess.run(["ip", *words.split()], check=True, capture_output=True)
        except (OSError, subprocess.SubprocessError) as fault:
            self.fault = fault

    def enter(self):
        """From here on the calling thread is on this machine."""
        call("setns", self.space, NEW_NETWORK)


class Served(servers.Server):
    """A server on a machine."""

    def __init__(self, machine, *given, more=None, **words):
        self.machine, self.more = machine, more or {}
        super().__init__(*given, host=machine.address, **words)

    def begins(self):
        super().begins()
        self.machine.enter()

    def start(self):
        kept = {name: os.environ.get(name) for name in self.more}
        os.environ.update(self.more)
        try:
            super().start()
        finally:
            for name, value in kept.items():
                os.environ.pop(name) if value is None else os.environ.update({name: value})


class Way:
    """What happens to packets between two machines."""

    def __init__(self):
        self.delay = self.jitter = self.loss = self.twice = 0.0
        self.held_until, self.is_cut, self.resets = 0.0, False, 0
        self.seen, self.forgotten, self.latest = set(), set(), {}


def sums(octets):
    """The checksum of the Internet (RFC 1071)."""
    total = sum(struct.unpack(">%dH" % (len(octets) // 2), octets))
    while total >> 16:
        total = (total & 0xFFFF) + (total >> 16)
    return ~total & 0xFFFF


def reset_behind(packet):
    """A reset for the sender of this packet, as from its receiver, at the place where the sender takes it."""
    head = (packet[0] & 15) * 4
    source, target = packet[12:16], packet[16:20]
    ports, acknowledged = packet[head:head + 4], packet[head + 8:head + 12]
    segment = ports[2:] + ports[:2] + acknowledged + bytes(4) + struct.pack(">BBHHH", 5 << 4, RST, 0, 0, 0)
    check = sums(target + source + struct.pack(">HH", 6, len(segment)) + segment)
    segment = segment[:16] + struct.pack(">H", check) + segment[18:]
    ip = struct.pack(">BBHHHBBH", 0x45, 0, 20 + len(segment), 0, 0, 64, 6, 0) + target + source
    return ip[:10] + struct.pack(">H", sums(ip)) + ip[12:] + segment


class Wire(threading.Thread):
    """What joins machines. Counts what was done to packets."""

    def __init__(self, machines, seed):
        super().__init__(daemon=True)
        self.machines = {bytes(map(int, machine.address.split("."))): machine for machine in machines}
        self.ways, self.draws, self.lock = {}, random.Random(seed), threading.Lock()
        self.carried = self.lost = self.turned = self.doubled = self.reset = 0
        self.waiting, self.order = [], itertools.count()
        for one, other in itertools.combinations(self.machines, 2):
            self.ways[one, other] = self.ways[other, one] = Way()
        self.start()

    def way(self, one, other):
        return self.ways[tuple(bytes(map(int, machine.address.split("."))) for machine in (one, other))]

    def every_way(self):
        return set(self.ways.values())

    def forget(self, one, other):
        """All connections that there are now between the two are dead from here on; new ones are not."""
        with self.lock:
            way = self.way(one, other)
            way.forgotten |= way.seen
            way.seen = set()

    def run(self):
        poll = select.epoll()
        ends = {machine.end: machine for machine in self.machines.values()}
        for end in ends:
            poll.register(end, select.EPOLLIN)
        while True:
            left = self.waiting[0][0] - time.monotonic() if self.waiting else 0.05
            for end, _ in poll.poll(max(0.0, min(left, 0.05))):
                self.take(end)
            with self.lock:
                while self.waiting and self.waiting[0][0] <= time.monotonic():
                    _, _, packet = heapq.heappop(self.waiting)
                    self.put(packet)

    def take(self, end):
        for _ in range(64):
            try:
                packet = os.read(end, 65536)
            except OSError:
                return
            if packet[0] >> 4 == 4 and packet[9] == 6 and (packet[12:16], packet[16:20]) in self.ways:
                with self.lock:
                    self.carry(packet, self.ways[packet[12:16], packet[16:20]])

    def carry(self, packet, way):
        head = (packet[0] & 15) * 4
        here, there = (packet[12:16], packet[head:head + 2]), (packet[16:20], packet[head + 2:head + 4])
        flow = frozenset((here, there))
        if way.is_cut or flow in way.forgotten or self.draws.random() < way.loss:
            self.lost += 1
            return
        way.seen.add(flow)
        if way.resets and packet[head + 13] & ACK and len(packet) > head + 40:
            way.resets -= 1
            self.reset += 1
            self.put(reset_behind(packet))
            return
        copies = 1 + (self.draws.random() < way.twice)
        self.doubled += copies - 1
        for _ in range(copies):
            when = max(time.monotonic() + way.delay + way.jitter * self.draws.random(), way.held_until)
            if way.delay or way.jitter or way.held_until > time.monotonic():
                self.turned += when < way.latest.get(here[0], 0)
                way.latest[here[0]] = max(when, way.latest.get(here[0], 0))
                heapq.heappush(self.waiting, (when, next(self.order), packet))
            else:
                self.put(packet)
        self.carried += 1

    def put(self, packet):
        try:
            os.write(self.machines[packet[16:20]].end, packet)
        except OSError:
            self.lost += 1


def fault_of_machine():
    """Why there can be no machines here, or none."""
    try:
        os.close(Machine("10.77.0.1").end)
    except (OSError, subprocess.SubprocessError) as fault:
        return str(fault)
    return None
