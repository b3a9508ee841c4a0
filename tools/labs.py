"""A network of routers and hosts on one machine, for tools/lab and .ci/lab: network namespaces joined by pairs of interfaces, FRR in the routers, and
an element on each host.

All of it stands in a room: mounts, processes and networks of its own, which the rest of the machine does not see, and which the system takes away
with the process that made them, however that ends."""
import ctypes
import ipaddress
import os
import shutil
import string
import subprocess
import sys
import threading
import time
from collections import namedtuple

import servers

TOP = os.path.dirname(os.path.dirname(os.path.abspath(__file__)))
FILES = os.path.join(TOP, "examples", "lab")
RUN = os.path.realpath("/var/run")
FOLDER = os.path.join(RUN, "lab")  # in the room, as all below RUN
HIDDEN = (RUN, "/var/tmp")  # where FRR keeps files; in the room nothing of the machine's is there
FRR = ("/usr/lib/frr", "/usr/libexec/frr", "/usr/local/sbin", "/usr/sbin", "/sbin")
NEW_MOUNTS, NEW_PROCESSES, NEW_NETWORK, PRIVATE = 0x20000, 0x20000000, 0x40000000, 1 << 18 | 1 << 14
PORT = 4189
MISSING = 3  # the status where the machine lacks what a lab needs
PAUSE = 0.1  # seconds between looks at what is to come

Router = namedtuple("Router", "name domain address")
Link = namedtuple("Link", "one near other far igp te bandwidth colour")
Border = namedtuple("Border", "one near other far")
Place = namedtuple("Place", "name domain address router gate")


class Missing(Exception):
    """What the machine lacks, in one line."""


class Failed(Exception):
    """What does not come about."""


# ---- a room


def is_there(name):
    """Where a program of FRR or of the system is, if it is there."""
    return shutil.which(name, path=os.pathsep.join((os.environ.get("PATH", os.defpath), *FRR)))


def program_of(name):
    """The same, where it must be there."""
    found = is_there(name)
    if found is None:
        raise Missing("%s is not there: it needs FRR and iproute2 (`apt-get install frr iproute2`, where Debian's packages are)" % name)
    return found


def version_of(name):
    """The version of a program of FRR."""
    return subprocess.run([program_of(name), "--version"], capture_output=True, text=True).stdout.split()[2]


def call(done):
    """A call of the system that may fail."""
    if done != 0:
        raise Missing("no namespaces can be made here (%s): run it as root, or behind `unshare --map-root-user --map-auto`" % os.strerror(ctypes.get_errno()))


def apart(do, *given):
    """The status that `do` answers in a process of its own, which ends with this one."""
    child = os.fork()
    if child == 0:
        status = 1
        try:
            servers.bound_to_parent()
            status = do(*given)
        except BaseException:
            sys.excepthook(*sys.exc_info())
        finally:
            sys.stdout.flush()
            os._exit(status)
    while True:
        try:
            ended = os.waitstatus_to_exitcode(os.waitpid(child, 0)[1])
            return ended if ended >= 0 else 128 - ended
        except KeyboardInterrupt:
            pass  # the other one was told, too


def told(name, do, *given):
    """The status that `do` answers; what is missing or fails is told under this name."""
    try:
        return do(*given)
    except (Missing, Failed) as fault:
        print("%s: %s" % (name, fault), file=sys.stderr, flush=True)
        return MISSING if isinstance(fault, Missing) else 1


def in_a_room(name, work, programs=("ip", "zebra", "ospfd", "vtysh")):
    """Does `work` in a room of its own, and answers its status: MISSING, and a line under this name, where the machine lacks what that needs."""
    return apart(told, name, make_room, name, work, programs)


def make_room(name, work, programs):
    for program in programs:
        program_of(program)
    if any(TOP.startswith(folder + os.sep) for folder in HIDDEN):
        raise Missing("the repository stands in a folder that has to be empty here: %s" % TOP)
    system = ctypes.CDLL(None, use_errno=True)
    call(system.unshare(NEW_MOUNTS | NEW_PROCESSES | NEW_NETWORK))
    return apart(told, name, enter, system, work)


def enter(system, work):
    """The first process of a room, with which all others end."""
    call(system.mount(b"none", b"/", None, PRIVATE, None))
    call(system.mount(b"proc", b"/proc", b"proc", 0, None))
    for folder in HIDDEN:
        call(system.mount(b"tmpfs", folder.encode(), b"tmpfs", 0, b"mode=%o" % (os.stat(folder).st_mode & 0o7777)))
    return work()


# ---- the network as it is written


class Network:
    """The rows of examples/lab/network.txt."""

    def __init__(self, file):
        self.routers, self.links, self.borders, self.hosts = {}, [], [], {}
        with open(file) as text:
            for line in text:
                words = line.split()
                if words and not words[0].startswith("#"):
                    self.take(*words)

    def take(self, word, *row):
        if word == "router":
            self.routers[row[0]] = Router(row[0], int(row[1]), row[2])
        elif word == "link":
            self.links.append(Link(*row))
        elif word == "border":
            self.borders.append(Border(*row))
        else:
            self.hosts[row[0]] = Place(row[0], int(row[1]), *row[2:])

    def host_of(self, domain):
        return next(host for host in self.hosts.values() if host.domain == domain)

    def ends_of(self, router):
        """Of each link inside the domain that this router has: the router at the other end, and the link."""
        return [(link.other if link.one == router else link.one, link) for link in self.links if router in (link.one, link.other)]

    def link_between(self, one, other):
        return next(link for link in self.links if {link.one, link.other} == {one, other})

    def far_addresses(self, domain):
        """The far addresses by which the links of a domain are told."""
        return {end for link in self.links if self.routers[link.one].domain == domain for end in (link.near, link.far)}


def configuration(file, router, network):
    """A configuration of a router by its template, in which a part that names $interface stands once for each link of the router."""
    with open(os.path.join(FILES, file)) as text:
        parts = text.read().split("!\n")
    written = []
    for part in parts:
        each = [dict(link._asdict(), interface=beyond) for beyond, link in network.ends_of(router.name)] if "$interface" in part else [{}]
        written += [string.Template(part).substitute(values, router=router.name, address=router.address) for values in each]
    return "!\n".join(written)


# ---- namespaces


def ip(*words):
    done = subprocess.run([program_of("ip"), *words], capture_output=True, text=True)
    if done.returncode != 0:
        raise Missing("`ip %s` fails (%s): it needs network namespaces and pairs of interfaces (veth)" % (" ".join(words), done.stderr.strip()))


def within(space, *words):
    """Words that run in a namespace."""
    return [program_of("ip"), "netns", "exec", space, *words]


def make_space(name):
    """A namespace whose own interface is up, and which hands on what comes whichever way it comes."""
    ip("netns", "add", name)
    ip("-n", name, "link", "set", "dev", "lo", "up")
    settings = ("ip_forward", 1), ("conf/all/rp_filter", 0), ("conf/default/rp_filter", 0)
    ip("netns", "exec", name, "sh", "-ec", "".join("echo %d > /proc/sys/net/ipv4/%s;" % (value, key) for key, value in settings))


def join(one, near, other, far):
    """A pair of interfaces between two namespaces, each named for the other end."""
    ip("link", "add", "name", other, "netns", one, "type", "veth", "peer", "name", one, "netns", other)
    for space, beyond, address in ((one, other, near), (other, one, far)):
        ip("-n", space, "addr", "add", address + "/30", "dev", beyond)
        ip("-n", space, "link", "set", "dev", beyond, "up")


def started(words, folder, name, **more):
    """A process whose output goes to a file of its own, where nothing else is said of it."""
    out = open(os.path.join(folder, name + ".log"), "w")
    return subprocess.Popen(words, stdin=subprocess.DEVNULL, **{"stdout": out, "stderr": out, **more})


class Host:
    """The element of a domain: `pce serve` on its host, and tools/ted, which tells it the topology of the IGP as that changes."""

    def __init__(self, program, place, pause):
        self.place, self.folder = place, os.path.join(FOLDER, place.name)
        self.text = os.path.join(self.folder, place.name + ".txt")
        shutil.copy(os.path.join(FILES, place.name + ".toml"), self.folder)
        shutil.copy(os.path.join(FILES, place.name + ".border"), self.folder)
        self.loads, self.links = 0, set()
        ask = "%s -N %s -d ospfd -c 'show ip ospf mpls-te database json'" % (program_of("vtysh"), place.router)
        words = [str(place.domain), "--border", self.file("border"), "--write", self.text, "--follow", str(pause), "--ask", ask]
        self.ted = started([sys.executable, os.path.join(TOP, "tools", "ted"), *words], self.folder, "ted", stdout=subprocess.PIPE)
        self.server = subprocess.Popen(within(place.name, program, "serve", self.file("toml")), stdin=subprocess.PIPE, stdout=subprocess.PIPE,
                                       stderr=subprocess.PIPE, env=servers.listen_address(place.address))
        self.answers, self.told = servers.Lines(self.server.stdout), servers.Lines(self.server.stderr)
        threading.Thread(target=self.hand_on, daemon=True).start()

    def file(self, ending):
        return os.path.join(self.folder, "%s.%s" % (self.place.name, ending))

    def hand_on(self):
        """What tools/ted says goes to the server's standard input."""
        try:
            for line in self.ted.stdout:
                with open(self.text) as text:
                    links = {row.split()[4] for row in text if row.startswith("link ")}
                self.loads, self.links = self.loads + 1, links
                self.server.stdin.write(line)
                self.server.stdin.flush()
        except OSError:
            pass  # it has ended

    def knows(self, links):
        """The server has answered to have loaded a topology with links of these far addresses."""
        said = list(self.answers.all)
        return self.links == links and len(said) == self.loads and " ok generation " in said[-1]


class Lab:
    """The network of examples/lab, made and running."""

    def __init__(self, program, pause=0.3):
        self.program, self.pause = os.path.abspath(program), pause
        self.network = Network(os.path.join(FILES, "network.txt"))
        self.running, self.hosts = {}, {}
        for name in (*self.network.routers, *self.network.hosts):
            os.makedirs(os.path.join(FOLDER, name))
        self.make_spaces()
        self.start_routers()
        for place in self.network.hosts.values():
            self.hosts[place.domain] = Host(self.program, place, pause)
        self.wait(self.are_ready, "the elements are not ready")

    # ---- how it is made

    def make_spaces(self):
        network = self.network
        for name in (*network.routers, *network.hosts):
            make_space(name)
        for router in network.routers.values():
            ip("-n", router.name, "addr", "add", router.address + "/32", "dev", "lo")
        for link in (*network.links, *network.borders):
            join(link.one, link.near, link.other, link.far)
        for host in network.hosts.values():
            join(host.name, host.address, host.router, host.gate)
            ip("-n", host.name, "route", "add", "default", "via", host.gate)
        for border in network.borders:
            self.lead_across(border.one, border.far, lambda host, here: host.domain > here)
            self.lead_across(border.other, border.near, lambda host, here: host.domain < here)

    def lead_across(self, router, beyond, is_beyond):
        """Routes over a border link to the hosts of the domains on its other side; the IGP tells them in the own domain."""
        for host in self.network.hosts.values():
            if is_beyond(host, self.network.routers[router].domain):
                ip("-n", router, "route", "add", str(ipaddress.ip_network(host.address + "/30", strict=False)), "via", beyond)

    def start_routers(self):
        """FRR in each router: zebra is told its configuration by vtysh, as all versions are; ospfd begins with its own, and finds all links."""
        first = ["mgmtd"] * bool(is_there("mgmtd")) + ["zebra"]  # mgmtd is of later versions
        sockets = []
        for name in self.network.routers:
            place = os.path.join(RUN, "frr", name)
            os.makedirs(place)
            shutil.chown(place, "frr", "frr")
            for daemon in first:
                self.start(daemon, name)
            sockets += [os.path.join(place, socket) for socket in ("zserv.api", *(daemon + ".vty" for daemon in first))]
        self.wait(lambda: all(map(os.path.exists, sockets)), "zebra does not start")
        telling = {name: subprocess.Popen([program_of("vtysh"), "-N", name, "-f", self.configuration("zebra.conf", name)], stdin=subprocess.DEVNULL,
                                          stdout=subprocess.PIPE, stderr=subprocess.STDOUT) for name in self.network.routers}
        for name, process in telling.items():
            said = process.communicate()[0].decode(errors="replace").strip()
            if process.returncode != 0:
                raise Failed("zebra of %s does not take its configuration: %s" % (name, said[-300:]))
        for name in self.network.routers:
            self.start("ospfd", name, "-f", self.configuration("ospfd.conf", name))

    def configuration(self, template, router):
        """The file of a router's configuration."""
        file = os.path.join(FOLDER, router, template)
        with open(file, "w") as text:
            text.write(configuration(template, self.network.routers[router], self.network))
        return file

    def start(self, daemon, router, *more):
        words = [program_of(daemon), "-N", router, "-i", os.path.join(RUN, "frr", router, daemon + ".pid"), "-P", "0", "--log", "stdout", *more]
        self.running[daemon, router] = started(within(router, *words), os.path.join(FOLDER, router), daemon)

    # ---- what it does

    def are_ready(self):
        return all("pce: ready" in host.told.all for host in self.hosts.values())

    def wait(self, comes, otherwise, within=60):
        """The seconds until something has come about."""
        began = time.monotonic()
        while not comes():
            self.look()
            if time.monotonic() > began + within:
                raise Failed(otherwise)
            time.sleep(PAUSE)
        return time.monotonic() - began

    def look(self):
        """Nothing of it may have ended."""
        for (daemon, router), process in self.running.items():
            if process.poll() is not None:
                with open(os.path.join(FOLDER, router, daemon + ".log")) as log:
                    raise Failed("%s of %s has ended with status %d: %s" % (daemon, router, process.returncode, log.read().strip()[-300:]))
        for host in self.hosts.values():
            for what, process in (("the element", host.server), ("tools/ted", host.ted)):
                if process.poll() is not None:
                    raise Failed("%s of the %s has ended with status %d: %s" % (what, host.place.name, process.returncode, " | ".join(host.told.all)))

    def wait_told(self, *absent):
        """The seconds until each element has the topology of its domain, without these links."""
        gone = {end for link in absent for end in (link.near, link.far)}
        return self.wait(lambda: all(host.knows(self.network.far_addresses(domain) - gone) for domain, host in self.hosts.items()),
                         "the elements are not told the topologies of their domains")

    def words_of(self, router, target, *domains):
        """The words with which a router asks the element of its domain, from its own address."""
        asks = self.network.routers[router]
        return ["tools/ask.py", self.network.host_of(asks.domain).address, str(PORT), asks.address, target, *map(str, domains), "--from", asks.address]

    def ask(self, router, target, *domains):
        """What the router is answered: the status and the words of tools/ask.py."""
        words = within(router, sys.executable, *self.words_of(router, target, *domains))
        try:
            done = subprocess.run(words, capture_output=True, text=True, timeout=30, cwd=TOP)
        except subprocess.TimeoutExpired:
            raise Failed("tools/ask.py does not end within 30 seconds, asked for %s by %s" % (target, router)) from None
        return done.returncode, (done.stdout + done.stderr).strip()

    def wait_chain(self, router, target, *domains):
        """The seconds until requests get through these domains."""
        return self.wait(lambda: self.ask(router, target, *domains)[0] == 0, "requests do not get through all domains")

    def kill(self, daemon, router):
        """A daemon dies without a word."""
        self.running[daemon, router].kill()
        self.running.pop((daemon, router)).wait()

    def set_link(self, link, state):
        """Cuts a link, or mends it, at its first end; the other end sees that its line is dead."""
        ip("-n", link.one, "link", "set", "dev", link.other, state)
