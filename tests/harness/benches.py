"""The programs of bench/: each prints its figures where it is asked for few of them."""
import subprocess
import sys

from harness.parts import part
from harness.programs import TOP, program

# Each program with its words, and the number of table rows that it prints at least, heads and rules among them.
RUNS = {
    "routes 1 5": 4,
    "builders 1": 8,
    "lines look": 3,
    "parts look": 0,
    "heard": 6,
    "load 1 20": 9,
    "calls 1 50": 6,
    "journal 1": 19,
    "web 1": 9,
    "memory 200 2": 6,
    "turns 1 9000": 3,
    "hall/run 1": 9,
    "workers/run 1": 8,
    "first HEAD mud_key": 8,
}
SECONDS = 900


def why_wrong(words, rows):
    """Returns what is wrong with a run of a program, if anything is."""
    ran = subprocess.run([f"{TOP}/bench/{words[0]}", *words[1:]], capture_output=True, timeout=SECONDS, text=True)
    found = sum(line.startswith("|") for line in ran.stdout.splitlines())
    if ran.returncode or not ran.stdout or found < rows:
        return f"status {ran.returncode}, {found} rows: {ran.stdout}{ran.stderr}"
    return ""


def why_not_played(words):
    """Returns what is wrong with the script that a program writes, if anything is: its last line ends the session."""
    script = subprocess.run([sys.executable, f"{TOP}/bench/{words[0]}", *words[1:]], capture_output=True, check=True)
    command = [program("mud_serve"), "script"]
    ran = subprocess.run(command, input=script.stdout, capture_output=True, timeout=SECONDS)
    return "" if ran.returncode == 0 and ran.stdout.endswith(b" bye\r\n") else repr(ran.stdout[-100:])


@part("benches", "the programs of bench/ print their figures, in their shortest runs", on_demand=True, wants_proof=True)
def benches(count):
    program("mud_serve")
    for words, rows in RUNS.items():
        count.tries(f"bench/{words}", why_wrong, words.split(), rows)
    for words in ("keys.py 5 2 1", "names.py 3 3"):
        count.tries(f"bench/{words}", why_not_played, words.split())
