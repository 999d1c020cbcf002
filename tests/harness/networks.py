"""A network of a test's own: a network namespace of Linux, whose loopback interface has the addresses of a test. Only
the thread that enters it is there, with the threads and programs that it starts.
"""
import contextlib
import ctypes
import os
import shutil
import socket
import subprocess
from concurrent.futures import ThreadPoolExecutor

from harness.server import SECONDS

CLONE_NEWNET = 0x4000_0000
NEEDED = ("ip", "unshare")
# Two addresses of one network of 64 bits, one of another, and two of IPv4 (for examples: RFC 3849, RFC 5737).
HERE, HERE_TOO, THERE = "2001:db8:0:1::1", "2001:db8:0:1:ffff:ffff:ffff:ffff", "2001:db8:0:2::1"
FOUR, FOUR_TOO = "198.51.100.1", "198.51.100.2"


def has_networks():
    """Returns whether a test may have a network of its own, with IPv6."""
    if os.geteuid() or not all(map(shutil.which, NEEDED)) or not os.path.exists("/proc/net/if_inet6"):
        return False
    return subprocess.run(["unshare", "--net", "true"], capture_output=True, check=False).returncode == 0


def enter(addresses):
    """Takes the calling thread to a new network with these addresses."""
    libc = ctypes.CDLL(None, use_errno=True)
    if libc.unshare(CLONE_NEWNET):
        raise OSError(ctypes.get_errno(), "unshare")
    subprocess.run(["ip", "link", "set", "lo", "up"], check=True)
    for one in addresses:
        words = ["ip", "address", "add", f"{one}/{128 if ':' in one else 32}", "dev", "lo"]
        subprocess.run(words, check=True)


def within(addresses, run, *given):
    """Returns the result of a function that runs in a thread with a network of its own, which has these addresses."""
    with ThreadPoolExecutor(1, initializer=enter, initargs=(addresses,)) as thread:
        return thread.submit(run, *given).result()


def dialled(to, port, source, seconds=SECONDS):
    """Returns a connection from one address of this network to another, of the same family."""
    return socket.create_connection((to, port), timeout=seconds, source_address=(source, 0))


def first_line(to, port, source):
    """Returns the first bytes that a connection from an address gets, or nothing if it is closed."""
    with dialled(to, port, source) as one, contextlib.suppress(ConnectionError):
        return one.recv(100)
    return b""


def in_network(why_wrong):
    """Returns a test that plays in a network of its own with those five addresses, where there can be one."""
    return lambda: within([HERE, HERE_TOO, THERE, FOUR, FOUR_TOO], why_wrong) if has_networks() else ""
