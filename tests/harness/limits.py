"""The rate limits of a server. It reads the lines beyond them later, in order, and loses none. The limits and their
defaults are those of docs/HOSTING.md.
"""
import contextlib
import re
import socket
import subprocess
import tempfile
import threading
import time
from concurrent.futures import ThreadPoolExecutor

from harness.guests import is_soon
from harness.hosted import SECONDS, Hosted, come, lines_until
from harness.inputs import read
from harness.networks import FOUR, FOUR_TOO, HERE, HERE_TOO, THERE, dialled, first_line, in_network
from harness.parts import part
from harness.programs import TOP, program
from harness.server import HOST
from harness.web import WebServer

# The entries of a history that takes some milliseconds to print, and the number of questions for it. At the rate of
# that test their answers have to take this many seconds.
LONG, QUESTIONS, SHARES = 20_000, 20, 12
# A row of the page's table: an option, its default and its burst.
LIMIT = re.compile(r"^\| `--([a-z-]+)` \| ([\d,]+) \| ([\d,]+) \|", re.M)


def build(port, count):
    """Pastes lines of a house in one piece. Returns the time of each reply in seconds, and the replies."""
    client = come(port, b"Ann")
    lines = [b"say brick %d" % at for at in range(count)]
    began, came, replies = time.monotonic(), [], []
    client.socket.settimeout(120)
    sending = threading.Thread(target=client.send_all, args=(lines,))
    sending.start()
    for _ in lines:
        replies.append(client.line())
        came.append(time.monotonic() - began)
    sending.join()
    client.close()
    return came, replies


def replies_of(count, first=2):
    """Returns the replies to this many lines of `say`, from this version on."""
    return [b"[%d] said" % (first + at) for at in range(count)]


def why_pasted():
    """A house of 198 lines is built at once by default. Further lines are read later, in order, and none is lost."""
    with Hosted("--changes-per-minute", "1200", limited=True) as hosted, hosted.console() as console:
        came, replies = build(hosted.server.port, 300)
        waited = console.status()["waited"]
        right = replies == replies_of(300) and came[190] < 2 and 3 < came[299] < 12 and int(waited) > 50
        slow = [line for line in hosted.log() if line.startswith("slow ")]
        right &= len(slow) == 1 and re.fullmatch(rf"slow session=1 from={HOST}:[0-9]+", slow[0]) is not None
        return "" if right else f"{came[190]:.1f} s, {came[299]:.1f} s, waited {waited}, {slow}, {replies[-1]}"


def why_changed():
    """After two hundred changes a session is read later, at the pace of its changes; questions wait with them."""
    with Hosted("--lines-per-second", "0", "--changes-per-minute", "60", limited=True) as hosted:
        came, replies = build(hosted.server.port, 603)
        right = replies == replies_of(603) and came[590] < 10 and 2 < came[602] - came[595] < 10
        return "" if right else f"{came[590]:.1f}, {came[595]:.1f}, {came[602]:.1f}, {replies[-1]}"


def why_web_paced():
    """On the web further lines are read later too, in order, and notices come meanwhile."""
    words = ["--lines-per-second", "10", "--changes-per-minute", "0"]
    with WebServer(*words, limited=True) as server:
        bob, ann = server.player(b"Bob"), come(server.port, b"Ann")
        for at in range(130):
            bob.send(b"say %d" % at)
        began = time.monotonic()
        ann.send(b"say hello")
        said, heard = [], None
        while len(said) < 130:
            line = bob.line()
            said += [line] * line.endswith(b"said")
            if b"hello" in line:
                heard = time.monotonic() - began
        took = time.monotonic() - began
        versions = [int(line[1:line.index(b"]")]) for line in said]
        right = len(said) == 130 and versions == sorted(versions) and 1.5 < took < 8 and heard is not None and heard < 2
        return "" if right else f"{len(said)} of 130, {took:.1f} s, heard after {heard}"


def seconds_of_answers(to, port, source, count):
    """Returns the seconds until this many lines from an address are answered, or all but the last of them."""
    with dialled(to, port, source, seconds=60) as one:
        began, came = time.monotonic(), b""
        one.sendall(b"look\r\n" * count)
        while came.count(b"understand") < count:
            came += one.recv(65_536)
        return time.monotonic() - began


def why_addressed():
    """The sessions of an address share its limits, and those of a loopback address have none."""
    words = ["--address", "0.0.0.0", "--lines-per-second", "0", "--changes-per-minute", "0"]
    words += ["--address-lines-per-second", "5", "--address-changes-per-minute", "0"]
    outside = outside_address()
    if outside is None:
        return ""
    with Hosted(*words, limited=True) as hosted, ThreadPoolExecutor() as threads:
        port = hosted.server.port
        alone = seconds_of_answers(outside, port, outside, 40)
        both = [threads.submit(seconds_of_answers, outside, port, outside, 20) for _ in range(2)]
        near = seconds_of_answers(HOST, port, HOST, 500)
        both = [one.result() for one in both]
        right = alone < 2 and max(both) > 3 and near < 3
        return "" if right else f"alone {alone:.1f} s, two {both}, near {near:.1f} s"


def why_network_lines():
    """The sessions of two addresses of one IPv6 network share their limits. Those of another network do not."""
    words = ["--address", "::", "--lines-per-second", "0", "--changes-per-minute", "0"]
    words += ["--address-lines-per-second", "5", "--address-changes-per-minute", "0"]
    with Hosted(*words, limited=True) as hosted, ThreadPoolExecutor() as threads:
        port = hosted.server.port
        alone = seconds_of_answers(HERE, port, HERE, 40)
        other = threads.submit(seconds_of_answers, HERE, port, HERE_TOO, 30)
        apart = [seconds_of_answers(to, port, source, 40) for to, source in
                 ((HERE, THERE), (FOUR, FOUR), (FOUR, FOUR_TOO))]
        shared = other.result()
        right = alone < 2 and shared > 2 and max(apart) < 2
        return "" if right else f"alone {alone:.1f} s, with another {shared:.1f} s, apart {apart}"


def why_network_connects():
    """The connections of one IPv6 network count together. Another network, and each IPv4 address, has its own count,
    and the loopback addresses have none.
    """
    with Hosted("--address", "::", "--connects-per-minute", "3") as hosted, hosted.console() as console:
        port = hosted.server.port
        tries = [(HERE, HERE)] * 2 + [(HERE, HERE_TOO)] * 2 + [(HERE, THERE)] * 3 + [(FOUR, FOUR)] * 3
        tries += [(FOUR, FOUR_TOO)] * 3 + [("::1", "::1")] * 5 + [(HOST, HOST)] * 5
        greeted = [bool(first_line(to, port, source)) for to, source in tries]
        counted = console.status()["refused_often"]
        logged = is_soon(lambda: f"refused from={HERE_TOO} why=often count=1" in hosted.log())
        right = [at != 3 for at in range(len(tries))], "1", True
        return "" if (greeted, counted, logged) == right else f"{greeted}, {counted}, {hosted.log()}"


def outside_address():
    """Returns an address of this machine that is not a loopback address, or None."""
    with contextlib.suppress(OSError), socket.socket(socket.AF_INET, socket.SOCK_DGRAM) as one:
        one.connect(("192.0.2.1", 9))
        address = one.getsockname()[0]
        return None if address.startswith("127.") else address
    return None


def why_connects():
    """Connections beyond the limit of an address are closed silently, and counted."""
    outside = outside_address()
    if outside is None:
        return ""
    with Hosted("--address", "0.0.0.0", "--connects-per-minute", "5") as hosted, hosted.console() as console:
        greeted = 0
        for _ in range(8):
            with socket.create_connection((outside, hosted.server.port), timeout=SECONDS) as one:
                with contextlib.suppress(ConnectionError):
                    greeted += one.recv(100).startswith(b"Welcome")
        counted = console.status()["refused_often"]
        logged = is_soon(lambda: any(f"refused from={outside} why=often" in line for line in hosted.log()))
        return "" if (greeted, counted, logged) == (5, "3", True) else f"{greeted}, {counted}, {hosted.log()}"


def why_slow_person():
    """A line every twentieth of a second, as fast as a key repeats, never waits for five seconds."""
    with Hosted(limited=True) as hosted, hosted.console() as console:
        client, slowest = come(hosted.server.port, b"Ann"), 0
        for at in range(100):
            began = time.monotonic()
            client.send(b"look" if at % 2 else b"@version")
            while b"[" not in (client.line() or b"["):
                pass
            slowest = max(slowest, time.monotonic() - began)
            time.sleep(0.05)
        waited = console.status()["waited"]
        return "" if waited == "0" and slowest < 1 else f"waited {waited}, {slowest:.2f} s"


def why_stopped():
    """A server whose sessions wait for a limit stops at once, and so does a session that the host ends."""
    words = ["--lines-per-second", "1", "--changes-per-minute", "1"]
    with Hosted(*words, limited=True) as hosted, hosted.console() as console:
        ann, bob = come(hosted.server.port, b"Ann"), come(hosted.server.port, b"Bob")
        for client in (ann, bob):
            client.send_all([b"say more"] * 50)
        time.sleep(0.5)
        began = time.monotonic()
        console.ask("end 1")
        lines_until(ann, b"(ended by the host)")
        ended = time.monotonic() - began
        console.ask("tell still here")
        lines_until(bob, b"(host: still here)")
        told = time.monotonic() - began
        console.ask("stop")
        lines_until(bob, b"(server stops)")
        stopped, (status, _) = time.monotonic() - began, hosted.server.end()
        return "" if status == 0 and stopped < 3 else f"{ended:.1f}, {told:.1f}, {stopped:.1f} s, status {status}"


def long_history(folder):
    """Writes a history in this folder that takes some milliseconds to print. Returns its path."""
    says = (f'{at} 1 say #2 {"x" * 200}\n' for at in range(2, LONG + 1))
    with open(f"{folder}/long", "w") as file:
        file.writelines(['mud history 2\n1 1 player #2 "Ann"\n', *says, f"end {LONG}\n"])
    return file.name


def asked(port):
    """Asks for the history QUESTIONS times. Returns the seconds until all is answered."""
    client, last = come(port, b"Ann"), b""
    client.socket.settimeout(60)
    began = time.monotonic()
    client.send_all([b"@history"] * QUESTIONS + [b"xyzzy"])
    while b"understand" not in last:
        last = last[-100:] + client.socket.recv(1_000_000)
    client.close()
    return time.monotonic() - began


def why_worked():
    """The questions of a session take the share of the time that its limit allows, and the log says that it waits."""
    with tempfile.TemporaryDirectory() as folder:
        words = ["--load", long_history(folder), "--lines-per-second", "0", "--work-per-second"]
        with Hosted(*words, "0", limited=True) as hosted, hosted.console() as console:
            free = asked(hosted.server.port)
            unlimited = console.status()["waited"], [line for line in hosted.log() if "slow" in line]
        # the milliseconds of work in a second; four seconds' work may be done at once
        rate = max(1, round(1_000 * free / SHARES))
        with Hosted(*words, str(rate), limited=True) as hosted, hosted.console() as console:
            took = asked(hosted.server.port)
            waited = console.status()["waited"]
            is_told = any(line.startswith("slow session=1 ") for line in hosted.log())
        # a part of the free time goes into sending, and a busy machine makes the work longer
        right = unlimited == ("0", []) and is_told and int(waited) > 1 and took - free > SHARES / 10
        return "" if right else f"{unlimited}, {free:.1f} s, at {rate} a second {took:.1f} s, waited {waited}"


def why_address_changed():
    """The sessions of an address share its changes: beyond them a change waits, and a question too."""
    outside = outside_address()
    if outside is None:
        return ""
    words = ["--address", "0.0.0.0", "--lines-per-second", "0", "--changes-per-minute", "0"]
    words += ["--address-lines-per-second", "0", "--address-changes-per-minute", "3"]
    with Hosted(*words, limited=True) as hosted, hosted.console() as console:
        players = [socket.create_connection((outside, hosted.server.port), timeout=SECONDS) for _ in range(2)]
        for at, player in enumerate(players):
            player.sendall(b"connect P%d\r\n" % at + b"say on\r\n" * 40)
        waits = is_soon(lambda: console.status()["waited"] == "2")
        made = console.status()["made"]
        for player in players:
            player.close()
        # both may find the last change free at once
        return "" if waits and made in ("30", "31") else f"{waits}, {made}, {console.status()}"


def why_address_paced():
    """Once the burst of an address is used, its sessions together make changes at its rate, however many they are."""
    words = ["--address", "::", "--lines-per-second", "0", "--changes-per-minute", "0"]
    words += ["--address-lines-per-second", "0", "--address-changes-per-minute", "60"]
    words += ["--excess-changes-per-minute", "0"]
    with Hosted(*words, limited=True) as hosted, hosted.console() as console:
        players = [dialled(HERE, hosted.server.port, source) for source in [HERE, HERE_TOO] * 10]
        for at, player in enumerate(players):
            player.sendall(b"connect P%d\r\n" % at + b"say on\r\n" * 200)
        made, began = lambda: int(console.status()["made"]), time.monotonic()
        at_once = is_soon(lambda: made() >= 600, SECONDS)
        time.sleep(8)
        later, most = made(), 600 + len(players) + time.monotonic() - began
        for player in players:
            player.close()
        return "" if at_once and later <= most else f"{later} changes, and at most {most:.0f} by the limit"


def why_beyond():
    """All sessions that wait for a change share one more limit. A player who does not wait takes nothing from it."""
    words = ["--lines-per-second", "0", "--changes-per-minute", "30", "--excess-changes-per-minute", "6"]
    with Hosted(*words, limited=True) as hosted, hosted.console() as console:
        flooders = [socket.create_connection((HOST, hosted.server.port), timeout=SECONDS) for _ in range(8)]
        for at, flooder in enumerate(flooders):
            flooder.sendall(b"connect P%d\r\n" % at + b"say on\r\nlook\r\n" * 400)
        made = lambda: int(console.status()["made"])
        bursts = 300 * len(flooders)
        at_once, began = is_soon(lambda: made() >= bursts, SECONDS), time.monotonic()
        time.sleep(6)
        came, replies = build(hosted.server.port, 20)
        later, most = made() - bursts - len(replies), 6 + len(flooders) + (time.monotonic() - began) / 10
        for flooder in flooders:
            flooder.close()
        right = at_once and 6 <= later <= most and came[-1] < 2
        return "" if right else f"{later} changes, and at most {most:.0f} by the limit; a player after {came[-1]:.1f} s"


def seconds_to_say(one, name, count):
    """Says this many things as a new player, one after the other. Returns the longest time until an answer."""
    one.sendall(b"connect %s\r\n" % name)
    longest, came = 0, b""
    for at in range(count):
        began = time.monotonic()
        one.sendall(b"say thing %d\r\n" % at)
        while not re.search(rb"\[\d+\] said\r\n", came):
            came += one.recv(65_536)
        longest, came = max(longest, time.monotonic() - began), b""
        time.sleep(0.05)
    return longest


def why_beside():
    """A player does not wait because another one of the address pastes more than the limit."""
    with Hosted("--address", "::", limited=True) as hosted, hosted.console() as console:
        port = hosted.server.port
        with dialled(HERE, port, HERE, seconds=60) as ann, dialled(HERE, port, HERE_TOO, seconds=60) as eve:
            ann.sendall(b"connect Ann\r\n" + b"say brick\r\n" * 260)
            waits = is_soon(lambda: console.status()["waited"] == "1", SECONDS)
            longest = seconds_to_say(eve, b"Eve", 150)
        return "" if waits and longest < 0.3 else f"{waits}, Eve waited {longest:.2f} s"


def why_network_sessions():
    """`--per-address` counts the sessions of one IPv6 network together, and those of another apart."""
    with Hosted("--address", "::", "--per-address", "2") as hosted:
        port, tries = hosted.server.port, [(HERE, HERE), (HERE, HERE_TOO), (HERE, HERE_TOO), (HERE, THERE)]
        tries += [(FOUR, FOUR), (FOUR, FOUR), (FOUR, FOUR), (FOUR, FOUR_TOO)]
        guests = [dialled(to, port, source) for to, source in tries]
        given = [guest.recv(100) for guest in guests]
        for guest in guests:
            guest.close()
        right = [b"(too many sessions)" if at in (2, 6) else b"Welcome" for at in range(len(tries))]
        return "" if all(map(bytes.startswith, given, right)) else f"{given}"


def limits_by_page():
    """Returns the default of each limit by docs/HOSTING.md: its rate and its burst."""
    rows = LIMIT.findall(read(f"{TOP}/docs/HOSTING.md").decode())
    return {name: tuple(int(number.replace(",", "")) for number in numbers) for name, *numbers in rows}


def why_defaults():
    """The page has the default of each limit, and its burst by the rule that it follows."""
    rows = limits_by_page()
    command = [program("mud_serve"), "listen", "--port", "0", "--address", HOST, "--check"]
    lines = subprocess.run(command, capture_output=True, text=True, check=True).stdout.splitlines()
    known = dict(line.split() for line in lines)
    times = {"lines-per-second": 10, "changes-per-minute": 10, "work-per-second": 4, "address-lines-per-second": 10,
             "address-changes-per-minute": 10, "excess-changes-per-minute": 1, "connects-per-minute": 1}
    right = {name: (int(known[name]), int(known[name]) * many) for name, many in times.items()}
    return "" if rows == right else f"the page has {rows}, and the program {right}"


ROWS = [
    ("their defaults", why_defaults),
    ("a pasted house", why_pasted),
    ("changes", why_changed),
    ("work", why_worked),
    ("on the web", why_web_paced),
    ("lines of an address", why_addressed),
    ("changes of an address", why_address_changed),
    ("changes of many sessions of an address", in_network(why_address_paced)),
    ("changes beyond the limits", why_beyond),
    ("changes beside one who pastes", in_network(why_beside)),
    ("connections of an address", why_connects),
    ("lines of an IPv6 network", in_network(why_network_lines)),
    ("connections of an IPv6 network", in_network(why_network_connects)),
    ("sessions of an IPv6 network", in_network(why_network_sessions)),
    ("one who types as people do", why_slow_person),
    ("a stop while sessions wait", why_stopped),
]


@part("limits", "lines beyond a rate limit are read later, in order, and none is lost")
def limits(count):
    count.tries_at_once((f"limits: {what}", why_wrong) for what, why_wrong in ROWS)
