#!/usr/bin/env python3
"""Runs what samples/operating has, with Debian's haproxy, openssl, socat and systemd: TLS, several processes, units, limits.

    operate.py COMMAND [--examples PROGRAM] [NAME..]    each trial prints a line; the status is 0 if each went as it should

PROGRAM is that of tests/more_examples, built: with it a client comes back to processes that share a store in Redis. All addresses are of 127.0.0.1, and all files lie in a folder that is removed.
"""
import contextlib
import os
import pathlib
import re
import shlex
import shutil
import signal
import socket
import ssl
import subprocess
import sys
import tempfile
import threading
import time
import urllib.request

TOP = pathlib.Path(__file__).resolve().parent.parent.parent
SAMPLES = TOP / "samples/operating"
sys.path.insert(0, str(TOP / "nightly/host"))
from host import RETURN, Peer, bootstrap, call, finish

NAME = "store.example.org"
NAMES = ["1", "2", "3", "4"]


def free_port():
    with socket.socket() as it:
        it.bind(("127.0.0.1", 0))
        return it.getsockname()[1]


def wait_until(holds, seconds=10):
    end = time.time() + seconds
    while not holds():
        assert time.time() < end, "waited in vain"
        time.sleep(0.02)


def connects(address):
    family = socket.AF_UNIX if isinstance(address, str) else socket.AF_INET
    with socket.socket(family) as it:
        return it.connect_ex(address) == 0


class Place:
    """A folder in the place of /run/store and /etc/store, and the programs that run there."""

    def __init__(self):
        self.folder = pathlib.Path(tempfile.mkdtemp(prefix="operate."))
        self.port, self.near, self.figures = free_port(), free_port(), free_port()
        self.environment = dict(
            os.environ,
            STORE=str(self.folder),
            CERTIFICATES=str(self.folder / "certificates"),
            SERVER=f"127.0.0.1:{self.port}",
            SERVER_NAME=NAME,
            FIGURES=f"127.0.0.1:{self.figures}",
        )
        self.processes = {}

    def run(self, *words, **others):
        return subprocess.run([str(it) for it in words], env=self.environment, stdout=subprocess.PIPE, stderr=subprocess.STDOUT, text=True, timeout=60, **others)

    def start(self, name, *words, **environment):
        with open(self.folder / f"{name}.log", "a") as log:
            self.processes[name] = subprocess.Popen([str(it) for it in words], env=self.environment | environment, stdout=log, stderr=log)

    def certify(self, *clients):
        assert self.run(SAMPLES / "certificates", self.environment["CERTIFICATES"], NAME, *clients).returncode == 0

    def serve(self, name, *options):
        """A process of the service, as store@.service starts it."""
        path = self.folder / name
        path.unlink(missing_ok=True)
        self.start(f"process {name}", COMMAND, "serve", "--behind-proxy", "--at-once", "1000", "--idle", "300", *options, "--socket", path, "-")
        wait_until(path.exists)

    def said(self, name):
        """What it printed."""
        return (self.folder / f"{name}.log").read_text()

    def share(self, name):
        """A process of the example whose texts lie in Redis."""
        path = self.folder / name
        path.unlink(missing_ok=True)
        self.start(f"process {name}", EXAMPLES, "store-shared", path, self.folder / "redis")
        wait_until(path.exists)

    def balance(self):
        self.start("balancer", "haproxy", "-W", "-f", SAMPLES / "balancer.cfg", LISTEN=f"127.0.0.1:{self.port}")
        wait_until(lambda: connects(("127.0.0.1", self.port)))

    def join(self, name="client", port=None, **environment):
        """The way to it of a client's side, and its address there."""
        port, store = port or self.near, self.folder / f"near.{name}"
        store.mkdir()
        self.start(name, "haproxy", "-W", "-f", SAMPLES / "client.cfg", LISTEN=f"127.0.0.1:{port}", STORE=str(store), **environment)
        wait_until(lambda: connects(("127.0.0.1", port)))
        return "127.0.0.1", port

    def ask(self, command):
        """What the balancer answers."""
        with socket.socket(socket.AF_UNIX) as it:
            it.connect(str(self.folder / "balancer"))
            it.sendall(command.encode() + b"\n")
            return b"".join(iter(lambda: it.recv(65_536), b"")).decode()

    def servers(self, column):
        """Of each process what `show stat` has in this column."""
        head, *rows = (it.split(",") for it in self.ask("show stat").removeprefix("# ").splitlines() if it)
        rows = [dict(zip(head, it)) for it in rows]
        return {it["svname"]: it[column] for it in rows if it["pxname"] == "store" and it["svname"] in NAMES}

    def are_up(self, *names):
        return all(self.servers("status")[it] == "UP" for it in names)

    def kill(self, name, number=signal.SIGKILL):
        self.processes[name].send_signal(number)
        self.processes.pop(name).wait(10)

    def leave(self):
        for it in self.processes.values():
            it.terminate()
        for it in self.processes.values():
            with contextlib.suppress(subprocess.TimeoutExpired):
                it.wait(2)
            it.kill()
            it.wait()
        shutil.rmtree(self.folder)


def session(address):
    """A whole session: a Bootstrap, a call, their answers."""
    peer = Peer(address)
    try:
        assert peer.send(bootstrap(0), call(1), finish(1), finish(0)).kinds(2) == [RETURN, RETURN]
    finally:
        peer.close()


def goes(peer, question):
    """Whether a connection answers one call more."""
    try:
        return peer.send(call(question)).kinds(1) == [RETURN]
    except (AssertionError, OSError):
        return False


def tls_context(place, client=None):
    context = ssl.create_default_context(cafile=place.folder / "certificates/servers.pem")
    if client:
        context.load_cert_chain(place.folder / f"certificates/{client}.pem")
    return context


def bytes_without(place, client=None):
    """What comes of a Bootstrap over TLS, with this certificate or none."""
    with socket.create_connection(("127.0.0.1", place.port)) as plain:
        with tls_context(place, client).wrap_socket(plain, server_hostname=NAME) as it:
            try:
                it.sendall(bootstrap(0))
                return it.recv(1)
            except OSError:
                return b""


def serial(place):
    """The number of the certificate that the balancer shows."""
    with socket.create_connection(("127.0.0.1", place.port)) as plain:
        with tls_context(place, "client").wrap_socket(plain, server_hostname=NAME) as it:
            return it.getpeercert()["serialNumber"]


def begin(place):
    """All processes, the balancer and a client's way to it, whose address it gives."""
    place.certify("client")
    for it in NAMES:
        place.serve(it)
    place.balance()
    near = place.join()
    wait_until(lambda: place.are_up(*NAMES))
    return near


def tls(place):
    """Only clients with a certificate get a byte through, and certificates are renewed under a connection."""
    near = begin(place)
    session(near)
    said = place.run(COMMAND, "call", f"127.0.0.1:{place.near}", "i=e5a1000000000001 m=0")
    assert said.stdout == "question:1 results {(;cap:0) caps[import:1]}\n", said.stdout
    refuse_strangers(place)
    ended = [it for it in place.said("balancer").splitlines() if '"/CN=client" process ' in it]
    assert len(ended) >= 2, "no line has the client's certificate"
    # One whose server has another name.
    wrong = place.join("wrong", free_port(), SERVER_NAME="other.example.org")
    with contextlib.suppress(OSError, AssertionError):
        session(wrong)
        raise RuntimeError("a server of another name was taken")
    renew(place, near)


def refuse_strangers(place):
    """Without a certificate, with another authority's, or without TLS no process gets a connection."""
    before = sum(map(int, place.servers("stot").values()))
    assert bytes_without(place) == b"", "a client without a certificate was answered"
    stranger = place.folder / "stranger"
    assert place.run(SAMPLES / "certificates", stranger, NAME, "stranger").returncode == 0
    shutil.copy(stranger / "stranger.pem", place.folder / "certificates")
    assert bytes_without(place, "stranger") == b"", "a stranger's certificate was taken"
    with socket.create_connection(("127.0.0.1", place.port)) as it:
        it.sendall(bootstrap(0))
        assert it.recv(100)[:1] != b"\0", "bytes without TLS were answered"
    assert sum(map(int, place.servers("stot").values())) == before, "a process got a connection"


def renew(place, near):
    """New certificates of both ends, under a connection that goes on."""
    peer = Peer(near).send(bootstrap(0))
    assert peer.kinds(1) == [RETURN]
    old = serial(place)
    place.certify("client")
    for it in ("balancer", "client"):
        place.processes[it].send_signal(signal.SIGUSR2)
    wait_until(lambda: serial(place) != old)
    assert goes(peer, 1), "a reload ended a connection"
    session(near)
    peer.close()


def opened(place, count):
    """So many connections, and those of each process, once all are shared out."""
    peers = [Peer(("127.0.0.1", place.near)).send(bootstrap(0)) for _ in range(count)]
    for it in peers:
        assert it.kinds(1) == [RETURN]
    return peers


def killed(place):
    """A process that is killed loses its own connections, and no session that begins meanwhile."""
    near = begin(place)
    # (leastconn shares out evenly once the slow start is over)
    for it in NAMES:
        place.ask(f"set server store/{it} weight 100%")
    peers = opened(place, 40)
    shares = {name: int(it) for name, it in place.servers("scur").items()}
    place.kill("process 2")
    for _ in range(100):
        session(near)
    left = sum(goes(it, 1) for it in peers)
    assert left == 40 - shares["2"], (left, shares)
    wait_until(lambda: not place.are_up("2"))
    place.serve("2")
    wait_until(lambda: place.are_up("2"))
    wait_until(lambda: (session(near), place.servers("lastsess")["2"] in ("0", "1"))[1], 15)
    for it in peers:
        it.close()
    return f"{shares['2']} of 40 connections ended, and 100 new sessions went"


def named(place):
    """A process knows who each client is, by the balancer, and takes no connection that doesn't say so."""
    begin(place)
    with socket.create_connection(("127.0.0.1", place.port)) as plain:
        client = "127.0.0.1:%d" % plain.getsockname()[1]
        with tls_context(place, "client").wrap_socket(plain, server_hostname=NAME) as it:
            it.sendall(b"\xff" * 8)
            wait_until(lambda: any(f"(peer {client})" in place.said(f"process {name}") for name in NAMES))
    for first in (bootstrap(0) + call(1), b"PROXY TCP4 127.0.0.1\r\n"):
        peer = Peer(str(place.folder / "1")).send(first)
        assert peer.is_closed(), "one without a header was served"
        peer.close()
    assert not any("(peer unix)" in place.said(f"process {it}") for it in NAMES), "a peer has no address"


class Visitors:
    """Sessions one after another in threads, until they are to end."""

    def __init__(self, address, count):
        self.done, self.failed, self.ends = 0, [], False
        self.threads = [threading.Thread(target=self.visit, args=(address,)) for _ in range(count)]
        for it in self.threads:
            it.start()

    def visit(self, address):
        while not self.ends:
            try:
                session(address)
                self.done += 1
                # (The balancer takes 500 in ten seconds from one address.)
                time.sleep(0.1)
            except (AssertionError, OSError) as error:
                self.failed.append(error)

    def end(self):
        self.ends = True
        for it in self.threads:
            it.join()


def drained(place):
    """All processes are restarted in turn under sessions that come and go: none fails. One that stays is sent away in time."""
    near = begin(place)
    staying = opened(place, 8)
    visitors = Visitors(near, 4)
    for it in NAMES:
        began = time.time()
        assert place.run(SAMPLES / "drain", it, "2").returncode == 0
        assert time.time() - began < 4
        place.kill(f"process {it}", signal.SIGTERM)
        place.serve(it)
        assert place.run(SAMPLES / "drain", it, "ready").returncode == 0
        wait_until(lambda: place.are_up(it))
    visitors.end()
    assert not visitors.failed, visitors.failed[:3]
    assert not any(goes(it, 1) for it in staying), "one stayed"
    for it in staying:
        it.close()
    return f"{visitors.done} sessions, none failed"


def comes_back(place):
    """A client goes on though each process is killed under it, and what it put is there at the other one."""
    place.certify("client")
    place.start("redis", "redis-server", "--port", "0", "--unixsocket", place.folder / "redis", "--save", "", "--appendonly", "no")
    wait_until((place.folder / "redis").exists)
    for it in NAMES[:2]:
        place.share(it)
    place.balance()
    near = place.join()
    wait_until(lambda: place.are_up("1", "2"))
    client = subprocess.Popen([EXAMPLES, "store-returning", str(near[1]), "4000"], stdout=subprocess.PIPE, text=True)
    for _ in range(6):
        time.sleep(0.3)
        busy = next(name for name, it in place.servers("scur").items() if it != "0")
        place.kill(f"process {busy}")
        place.share(busy)
    said = client.communicate(timeout=60)[0]
    done = re.fullmatch(r"4000 texts were put, (\d+) times its connection was lost\n", said)
    assert done and int(done[1]) >= 6, said
    request = place.folder / "store.request"
    request.write_bytes(subprocess.run(["capnp", "compile", "-o-", TOP / "tests/store/store.capnp"], stdout=subprocess.PIPE, check=True).stdout)
    wait_until(lambda: place.are_up("1", "2"))
    for it in NAMES[:2]:
        place.ask(f"set server store/{it} state drain")
        got = place.run(COMMAND, "call", "--schema", request, f"127.0.0.1:{near[1]}", 'get (key = "colour")').stdout
        place.ask(f"set server store/{it} state ready")
        assert got == 'question:1 results Store.get (value = "blue")\n', got
    return f"{done[1]} times its connection was lost"


def figures(place):
    """Prometheus' text has what each process does."""
    near = begin(place)
    peers = opened(place, 8)
    for _ in range(12):
        session(near)
    # HAProxy counts a session when it ends, a little after its peer sees that. (One more looked whether the way is there.)
    wait_until(lambda: (8, 21) == tuple(sum(numbers_of(place)[it]) for it in ("current_sessions", "sessions_total")))
    for it in peers:
        it.close()


def numbers_of(place):
    """The numbers of each process, by HAProxy."""
    with urllib.request.urlopen(f"http://127.0.0.1:{place.figures}/metrics", timeout=10) as answer:
        text = answer.read().decode()
    found = {it: re.findall(rf'^haproxy_server_{it}{{proxy="store",server="(\d)"}} (\d+)$', text, re.M) for it in FIGURES}
    assert all([name for name, _ in it] == NAMES for it in found.values()), found
    return {name: [int(number) for _, number in it] for name, it in found.items()}


FIGURES = ["current_sessions", "sessions_total", "bytes_in_total", "check_failures_total"]


def lines_of(unit):
    return {name: value for name, value in re.findall(r"^(\w+)=(.*)$", re.sub(r"\\\n\s*", "", (SAMPLES / unit).read_text()), re.M)}


def words_of(place, unit, key="ExecStart"):
    """The command of a unit, by hand: with this command and this folder."""
    text = lines_of(unit)[key].removeprefix("-").replace("$PROXY ", "").replace("%i", "1").replace("${STORE}", str(place.folder)).replace("/run/store", str(place.folder))
    text = text.replace("/usr/local/bin/capnp_cli", COMMAND).replace("/usr/local/lib/store", str(SAMPLES)).replace("/etc/store", str(place.folder))
    return shlex.split(text)


def units(place):
    """Units are well formed, and their commands run by hand, with systemd's own tools for sockets."""
    copies = place.folder / "units"
    copies.mkdir()
    for it in [*SAMPLES.glob("*.service"), *SAMPLES.glob("*.socket")]:
        # (The programs aren't where the units have them.)
        (copies / it.name).write_text(re.sub(r"/usr/local/(bin|lib/store)/\w+", "/bin/true", it.read_text()))
    said = place.run("systemd-analyze", "verify", *sorted(copies.glob("*")))
    assert said.returncode == 0 and not said.stdout, said.stdout
    place.run(*words_of(place, "store@.service", "ExecStartPre"))
    place.start("process 1", *words_of(place, "store@.service"))
    wait_until((place.folder / "1").exists)
    ports = {it: free_port() for it in ("once", "port", "guard")}
    place.start("once", "systemd-socket-activate", "--inetd", "--accept", "-l", f"127.0.0.1:{ports['once']}", *words_of(place, "store-once@.service"))
    place.start("port", "systemd-socket-activate", "-l", f"127.0.0.1:{ports['port']}", *words_of(place, "store-port.service"))
    request = subprocess.run(["capnp", "compile", "-o-", TOP / "samples/desk.capnp"], stdout=subprocess.PIPE, check=True).stdout
    (place.folder / "store.request").write_bytes(request)
    (place.folder / "rules").write_text("allow Desk.now\n")
    guard = [str(ports["guard"]) if it == "7001" else it for it in words_of(place, "store-guard.service")]
    place.start("guard", *guard)
    for it in ports.values():
        wait_until(lambda: connects(("127.0.0.1", it)))
    for it in ports.values():
        for _ in range(3):
            session(("127.0.0.1", it))
    refused = place.run(COMMAND, "call", f"127.0.0.1:{ports['guard']}", "i=e5a1000000000001 m=1").stdout
    assert "not allowed: Desk.later" in refused, refused


TRIALS = [tls, named, killed, drained, comes_back, figures, units]


def main():
    failed = 0
    for trial in TRIALS:
        if NAMED and trial.__name__ not in NAMED or trial is comes_back and not EXAMPLES:
            continue
        place = Place()
        try:
            print(f"{trial.__name__}: {trial(place) or 'as it should'}", flush=True)
        except (AssertionError, OSError, RuntimeError, subprocess.SubprocessError) as error:
            print(f"{trial.__name__}: FAILED {error!r}", flush=True)
            for it in sorted(place.folder.glob("*.log")):
                print(f"  {it.name}: {it.read_text()[-1000:]!r}", flush=True)
            failed = 1
        finally:
            place.leave()
    return failed


if __name__ == "__main__":
    COMMAND, *NAMED = sys.argv[1:]
    COMMAND, EXAMPLES = os.path.abspath(COMMAND), None
    if NAMED[:1] == ["--examples"]:
        EXAMPLES, NAMED = os.path.abspath(NAMED[1]), NAMED[2:]
    sys.exit(main())
