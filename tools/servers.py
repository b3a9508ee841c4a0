"""Runs a built program as a server, for the checks of .ci and the benches: on ports that are free, in a folder of its own, and ended whatever
happens."""
import ctypes
import os
import queue
import random
import resource
import signal
import socket
import subprocess
import tempfile
import threading
import time

HOST = "127.0.0.1"
PORTS = range(12000, 32000)  # below those that the system gives to connections
END_WITH_PARENT = 1  # PR_SET_PDEATHSIG


class NotStarted(Exception):
    """The program ended before it was ready; `status` and `lines` say how."""

    def __init__(self, status, lines):
        super().__init__("the program ends with status %s: %s" % (status, " | ".join(lines)))
        self.status = status
        self.lines = lines


def is_free(port):
    with socket.socket() as probe:
        probe.setsockopt(socket.SOL_SOCKET, socket.SO_REUSEADDR, 1)
        try:
            probe.bind((HOST, port))
            return True
        except OSError:
            return False


def free_ports(count):
    """The first of so many ports one behind the other, none of which is in use."""
    while True:
        first = random.randrange(PORTS.start, PORTS.stop - count)
        if all(map(is_free, range(first, first + count))):
            return first


def listen_address(host=HOST):
    """The environment of a program that listens at this address alone."""
    return dict(os.environ, PCE_LISTEN=host)


def bound_to_parent():
    ctypes.CDLL(None).prctl(END_WITH_PARENT, signal.SIGKILL)
    # a shell that starts a check in the background has it ignore interrupts, and what it starts too
    signal.signal(signal.SIGINT, signal.SIG_DFL)


def freeze(process):
    """Stops a process that this one started, and returns once all its threads stand still: on a busy machine they go on for a while behind the signal."""
    process.send_signal(signal.SIGSTOP)
    os.waitid(os.P_PID, process.pid, os.WSTOPPED | os.WEXITED | os.WNOWAIT)


class Lines:
    """The lines of a stream, as they come."""

    def __init__(self, stream):
        self.all = []
        self.coming = queue.Queue()
        self.thread = threading.Thread(target=self.take, args=(stream,), daemon=True)
        self.thread.start()

    def take(self, stream):
        for line in stream:
            line = line.decode(errors="replace").rstrip("\n")
            self.all.append(line)
            self.coming.put(line)
        self.coming.put(None)

    def next(self, within=30):
        """The next line; None where the stream has ended, or nothing comes in time."""
        try:
            return self.coming.get(timeout=within)
        except queue.Empty:
            return None


class Server:
    """A running `serve`, which listens at this address. Its settings and their files stand in a folder of its own. Where it is `unread` nobody has
    the other end of its standard output; where `room` is given, it has that many kB of addresses."""

    def __init__(self, program, settings, files=(), given=subprocess.PIPE, within=30, host=HOST, unread=False, room=None):
        self.folder = tempfile.TemporaryDirectory()
        for name, text in [("net.toml", settings), *files]:
            self.put(name, text)
        self.program, self.given, self.within, self.host = program, given, within, host
        self.unread, self.room = unread, room
        self.process = None
        self.start()

    def put(self, name, text):
        with open(os.path.join(self.folder.name, name), "w") as file:
            file.write(text)

    def begins(self):
        """In the new process, before the program."""
        bound_to_parent()
        if self.room:
            resource.setrlimit(resource.RLIMIT_AS, (1024 * self.room, 1024 * self.room))

    def start(self):
        """Starts, and waits until it is ready."""
        self.process = subprocess.Popen([self.program, "serve", os.path.join(self.folder.name, "net.toml")], stdin=self.given, stdout=subprocess.PIPE,
                                        stderr=subprocess.PIPE, env=listen_address(self.host), preexec_fn=self.begins)
        self.told = Lines(self.process.stderr)
        if self.unread:
            self.process.stdout.close()
        else:
            self.out = Lines(self.process.stdout)
        until = time.monotonic() + self.within
        while (line := self.told.next(until - time.monotonic() if until > time.monotonic() else 0)) != "pce: ready":
            if line is None:
                self.stop()
                raise NotStarted(self.process.returncode, self.told.all)

    def say(self, line):
        """An operator's line; the next line of its output."""
        self.process.stdin.write(line.encode() + b"\n")
        self.process.stdin.flush()
        return self.out.next()

    def is_running(self):
        return self.process.poll() is None

    def stop(self, how=signal.SIGTERM):
        """Ends it by a signal; its status."""
        if self.process and self.is_running():
            self.process.send_signal(how)
            try:
                self.process.wait(5)
            except subprocess.TimeoutExpired:
                self.process.kill()
                self.process.wait()
        if self.process and self.process.stdin:
            try:
                self.process.stdin.close()
            except OSError:
                pass
        return self.process.returncode if self.process else None

    def __enter__(self):
        return self

    def __exit__(self, *_):
        self.stop()
        self.folder.cleanup()

    def most_memory(self):
        """The most memory that it had, in megabytes (VmHWM)."""
        with open("/proc/%d/status" % self.process.pid) as file:
            return next(int(line.split()[1]) for line in file if line.startswith("VmHWM")) / 1024

    def leave_descriptors(self, more):
        """From now on it has no more descriptors than those that it has opened and so many."""
        most = 1 + max(map(int, os.listdir("/proc/%d/fd" % self.process.pid))) + more
        resource.prlimit(self.process.pid, resource.RLIMIT_NOFILE, (most, most))

    def threads(self):
        """Of each thread the processor seconds so far, and how often it went to sleep."""
        found = {}
        for thread in os.listdir("/proc/%d/task" % self.process.pid):
            folder = "/proc/%d/task/%s/" % (self.process.pid, thread)
            try:
                with open(folder + "schedstat") as times, open(folder + "status") as status:
                    sleeps = next(int(line.split()[1]) for line in status if line.startswith("voluntary_ctxt_switches"))
                    found[thread] = int(times.read().split()[0]) / 1e9, sleeps
            except OSError:
                pass  # it has ended
        return found

    def busy(self):
        """The processor seconds of all threads so far."""
        return sum(busy for busy, _ in self.threads().values())

    def spinning(self, seconds=1.0):
        """How many threads, in so many seconds, take half a processor, or run and never go to sleep."""
        before, began = self.threads(), time.monotonic()
        time.sleep(seconds)
        after, took = self.threads(), time.monotonic() - began
        more = [(busy - before[thread][0], sleeps - before[thread][1]) for thread, (busy, sleeps) in after.items() if thread in before]
        return sum(1 for busy, sleeps in more if busy > took / 2 or (busy > took / 50 and sleeps == 0))


def rows(table, *given):
    """Rows of a table of settings."""
    def shown(value):
        return str(value).lower() if isinstance(value, bool) else '"%s"' % value if isinstance(value, str) else str(value)
    return "".join("[[%s]]\n" % table + "".join("%s = %s\n" % (key, shown(value)) for key, value in row.items()) for row in given)


def in_a_row(count, peers, topologies=(), top="", **more):
    """Settings of elements 1 to count, each linked to the next; peers are (name, domain, class, port), a neighbour's class with its domain,
    and where there are more keys of a row, these."""
    elements = [dict({"as": at, "id": "192.0.2.%d" % at}, **({"topology": topologies[at - 1]} if at <= len(topologies) else {}), **more)
                for at in range(1, count + 1)]
    outside = []
    for name, at, kind, port, *keys in peers:
        word, _, neighbour = kind.partition(" ")
        outside.append(dict({"name": name, "as": at, "class": word, "port": port}, **({"neighbour": int(neighbour)} if neighbour else {}),
                            **(keys[0] if keys else {})))
    return top + rows("element", *elements) + rows("link", *({"a": at, "b": at + 1} for at in range(1, count))) + rows("peer", *outside)
