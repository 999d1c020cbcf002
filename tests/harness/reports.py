"""The script tests/run itself: it runs tests by name, and shows how a text differs and where a part breaks off."""
import contextlib
import io

from harness.parts import Count, Part, Skipped, part, run_part
from harness.sessions import count_each, difference

WANTED = b"[1] welcome #2\r\n[2] said\r\nlast"
PRINTED = b"[1] welcome #2\r\n[2] Said\r\nlast\n"
DIFFERENCE = r"""it differs
--- wanted
+++ printed
@@ -1,3 +1,3 @@
 [1] welcome #2\r
-[2] said\r
-last (no line end)
+[2] Said\r
+last"""


def tables(count):
    """A part of five tests: one fails, one raises an exception, and three pass."""
    count("one: sum", 1 + 1 == 2)
    count("two: sum", 1 + 1 == 3, "it is 2")
    count_each(count, lambda given: given[0] if given else "", [("one: each", ""), ("two: each", None)])
    count.tries("three: raised", lambda: {}["lamp"])


def broken(_):
    raise ValueError("no lamp")


def skipped(_):
    raise Skipped("no lamp here")


def reported(run, *words, takes=""):
    """Returns the output of such a part with these words, and its counts."""
    total = Count()
    with contextlib.redirect_stdout(io.StringIO()) as printed:
        run_part(Part("lamps", "lamps burn", run, False, takes, False), list(words), total)
    return printed.getvalue(), (total.passed, total.failed)


@part("reports", "a single test by its name, a text that differs, a part that breaks off: what tests/run shows")
def reports(count):
    for words, counts in (((), (3, 2)), (("one",), (2, 0)), (("three", "two: sum"), (0, 2)), (("four",), (0, 0))):
        printed, given = reported(tables, *words)
        count(f"reports: {words}", given == counts, f"{given} {printed}")
    count("reports: no such test", "lamps: no test has four in its name" in reported(tables, "four")[0])
    printed, _ = reported(tables, "three")
    count("reports: a test that raises", "Traceback" in printed and "KeyError: 'lamp'" in printed, printed)
    printed, given = reported(broken)
    is_told = "lamps breaks off" in printed and "in broken" in printed and "ValueError: no lamp" in printed
    count("reports: a part that breaks off", is_told and given == (0, 1), printed)
    printed, given = reported(broken, "one")
    count("reports: it breaks off, whatever is named", given == (0, 1), printed)
    printed, given = reported(skipped)
    count("reports: a part that is skipped", (printed, given) == ("lamps: skipped: no lamp here\n", (0, 0)), printed)
    printed, _ = reported(lambda count, *words: count("words", words == ("4", "5")), "4", "5", takes="A B")
    count("reports: words of a part", "1 passed" in printed, printed)
    shown = difference(PRINTED, WANTED)
    count("reports: a text that differs", shown == DIFFERENCE, shown)
    count("reports: a text that is as wanted", difference(WANTED, WANTED) == "")
