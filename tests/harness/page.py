"""The page: the server serves what the sources give, and its logic does as docs/WEB.md says."""
import re
import shutil
import subprocess
import sys

from harness.parts import Skipped, part
from harness.programs import TOP

COUNTED = re.compile(r"^# (pass|fail) (\d+)$", re.M)
SUBJECTS = ("replies", "layout", "picture", "log", "connection", "hands", "checking", "checker", "help",
            "style")
MOST_BYTES = 100_000  # The limit of the whole page.


@part("page-built", "the page that the server hands out is what page/make_page.py makes of its sources, and small")
def page_built(count):
    done = subprocess.run([sys.executable, f"{TOP}/page/make_page.py", "--check"], capture_output=True, text=True)
    count("page/make_page.py --check", done.returncode == 0, done.stderr)
    with open(f"{TOP}/crates/mud_page/src/page.rt") as file:
        size = int(re.search(r"Content-Length: (\d+)", file.read().replace("\\\n", ""))[1])
    count("the page is small", size <= MOST_BYTES, size)


@part("page", "the page's own logic, by node: replies, the map, the log, the connection, the hands, checked answers")
def page(count):
    if not shutil.which("node"):
        raise Skipped("node is not there")
    for name in SUBJECTS:
        command = ["node", "--test", "--test-reporter=tap", f"{TOP}/tests/page/{name}.test.mjs"]
        done = subprocess.run(command, capture_output=True, text=True, timeout=300)
        told = dict(COUNTED.findall(done.stdout))
        count(name, done.returncode == 0 and told.get("fail") == "0" and int(told["pass"]) > 0, done.stdout[-1500:])
