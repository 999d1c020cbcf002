"""Refuses each request for memory of a program in turn. Where threads make requests, a run may make fewer than the
first run did. A run must give everything that it gives with ample memory, or the program's report that memory is out,
and nothing else:

mud_serve    the text in which one line is answered `(out of memory)` and was no step, or a prefix of
             the text, status 4 and `mud_serve: out of memory` on standard error
mud_check    the line `unreadable: out of memory`, and status 2 mud_keep     the same line on standard error, and status
2 others       a prefix of the text, status 4 and `PROGRAM: out of memory` on standard error;
             `mud_explain hall` may also give the text in which one line is answered `(out of memory)` and
             was no step, or only its desk, one of three at most, saw more or applied some
"""
import re

from harness import runs
from harness.inputs import session
from harness.parts import part
from harness.trial import Trial, tell

# A unit in a stream of Telnet's bytes: a command, a line end, or one byte (docs/TELNET.md).
TOKEN = re.compile(rb"\xff[\xfb-\xfe].|\xff\xfa(?:[^\xff]|\xff[^\xf0])*\xff\xf0|\xff.|\r[\n\0]?|.", re.DOTALL)
# If a desk's world applies only some of the entries that the desk has seen, and another desk learns from it, this trial
# does not know the right answer.
UNKNOWN = ("hall told-in-order",)


def telnet_lines(text):
    """Returns each line of a player with its end, and the commands inside it separately, since they are no part of the
    line."""
    lines = [(b"", b"")]
    for token in TOKEN.findall(text):
        line, commands = lines[-1]
        lines[-1] = line + token, commands + (token if token.startswith(b"\xff") else b"")
        if token[:1] in b"\r\n":
            lines.append((b"", b""))
    return lines


def seen_before(lines, at):
    """Returns the lines before a line of a desk, and what the desk may have seen there."""
    number = lines[at].split(b" ")[0]
    if not number.isdigit():
        return
    yield from ([*lines[:at], number + word] for word in (b" see\n", b" learn 1\n", b" learn 2\n", b" learn 3\n"))
    for then in range(at - 1, 0, -1):
        if lines[then].split(b" ")[0] == number:
            return
        yield [*lines[:then], number + b" see\n", *lines[then:at]]


class RefusedMemory(Trial):
    """A trial whose calls are requests for memory."""

    def __init__(self, run):
        super().__init__(run, "refuse")
        self.is_script = run.program == "mud_serve"
        answers_lines = self.is_script or "hall" in run.words[:1]
        self.texts = self.without_a_line() if answers_lines else set()

    def lines(self):
        """Returns the lines. With each comes everything that may be done if the line is answered `(out of memory)`: the
        lines before it, and none of it or its commands. A desk may also have seen what another of three desks has seen,
        and its world may apply it now or later. Or it saw what it would have seen, had it looked then, since its last
        line."""
        if self.is_script:
            parts = telnet_lines(self.run.text)
            lines = [line for line, _ in parts]
            return lines, [[[*lines[:at], commands]] for at, (_, commands) in enumerate(parts)]
        lines = self.run.text.splitlines(keepends=True)
        return lines, [[[*lines[:at], b""], *seen_before(lines, at)] for at in range(len(lines))]

    def without_a_line(self):
        """Returns the texts in which one of the lines that have a reply is answered `(out of memory)`."""
        lines, insteads = self.lines()
        fronts = [self.given(b"".join(lines[:count]))[1] for count in range(len(lines) + 1)]
        replied = [at for at in range(len(lines)) if fronts[at] != fronts[at + 1]]
        tried = ((at, other) for at in replied for other in insteads[at])
        texts = {self.text_without(lines, fronts, at, other) for at, other in tried}
        return texts - {None}

    def text_without(self, lines, fronts, at, other):
        """Returns the text if this line is answered `(out of memory)` and these other lines stand in place of it and
        the lines before it. Returns None if that shows the line's reply."""
        front_then = self.given(b"".join(other))[1]
        rest = self.given(b"".join([*other, *lines[at + 1 :]]))[1]
        assert rest.startswith(front_then), f"line {at + 1} is answered before it came"
        front = front_then if self.is_script else fronts[at]
        if front == fronts[at + 1]:
            return None
        return front + b"(out of memory)" + (b"\r\n" if self.is_script else b"\n") + rest[len(front_then) :]

    def is_right(self, given, call):
        """Returns whether the program may answer so after a refused request."""
        return given == self.whole or (self.calls_made() >= call and self.is_out_of_memory(*given))

    def is_out_of_memory(self, status, output, errors):
        """Returns whether this is the program's report that memory is out."""
        if self.run.program == "mud_check":
            return (status, output, errors) == (2, b"unreadable: out of memory\n", b"")
        if self.run.program == "mud_keep":
            return (status, output, errors) == (2, b"", b"unreadable: out of memory\n")
        if status == 0 and errors == b"":
            return output in self.texts
        said = f"{self.run.program}: out of memory\n".encode()
        return status == 4 and errors == said and self.whole[1].startswith(output)


def refused_in_turn(count, run):
    """Refuses each request of a run in turn."""
    trial = RefusedMemory(run)
    felt, faults = trial.in_turn(trial.is_right)
    if not felt:
        faults.append("no refused request is felt")
    tell(count, "refused memory", trial, felt, faults)


@part("refused-memory", "each request for memory is refused in turn")
def refused_memory(count):
    workers = runs.script(session("meetings"), "--workers", "2")
    for run in [*runs.few_scripts(), workers, runs.check(*runs.FREE_EXITS), *runs.few_kept(), *runs.few_explained()]:
        refused_in_turn(count, run)


@part("refused-memory-everywhere", "refused-memory over all small inputs", on_demand=True)
def refused_memory_everywhere(count):
    for run in runs.small_runs():
        if run.name not in UNKNOWN:
            refused_in_turn(count, run)
