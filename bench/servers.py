"""What the programs that time servers share: programs that must be there, a free port of 127.0.0.1, waiting until a server listens, the
processor time and the memory that it took, and open files for many connections."""
import os
import pathlib
import resource
import socket
import sys
import time


def expect_built(*programs):
    """Ends this program where one of these can't be run."""
    for it in programs:
        if not os.access(it, os.X_OK):
            sys.exit(f"{it} isn't built")


def free_port():
    with socket.socket() as it:
        it.bind(("127.0.0.1", 0))
        return it.getsockname()[1]


def wait_for(server, port):
    """Returns once it listens. (It may take one connection, so a try to connect would use that up.)"""
    for _ in range(500):
        if f":{port:04X} 00000000:0000 0A" in pathlib.Path("/proc/net/tcp").read_text():
            return
        if server.poll() is not None:
            break
        time.sleep(0.01)
    sys.exit("the server doesn't listen")


def spent(process):
    """The seconds of a processor that a process and its threads took, as its scheduler counts them."""
    threads = pathlib.Path(f"/proc/{process.pid}/task").iterdir()
    return sum(int((it / "schedstat").read_text().split()[0]) for it in threads) / 1e9


def used():
    """Processor microseconds of the children that have ended."""
    use = resource.getrusage(resource.RUSAGE_CHILDREN)
    return 1e6 * (use.ru_utime + use.ru_stime)


def peak(process):
    """The most kB of memory that a process had."""
    lines = pathlib.Path(f"/proc/{process.pid}/status").read_text().splitlines()
    return next(int(it.split()[1]) for it in lines if it.startswith("VmHWM:"))


def raise_open_files():
    """Lets this process and those that it starts have as many open files as the system allows."""
    _, most = resource.getrlimit(resource.RLIMIT_NOFILE)
    resource.setrlimit(resource.RLIMIT_NOFILE, (most, most))
