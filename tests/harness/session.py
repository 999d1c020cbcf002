"""A session with a server: what one connection sent and read, and what can be said of it without a history."""
import re

FULL, LACKING = "(history full)", "(out of memory)"
GREETING = "Welcome. Type: connect NAME"
NOTICE = re.compile(r"\(([0-9]+)\) (.*)")
REPLY = re.compile(r"\[([0-9]+)\] (.*)")
WELCOME = re.compile(r"welcome #([0-9]+)")


class Session:
    """The lines that one connection sent and read. It is broken if it ended before its last line was answered. It may
    be the part of a connection in a later volume: then it goes on with a player, or None, from a version on.
    """

    def __init__(self, player=None, begun=None):
        self.sent, self.read = [], []
        self.is_broken = False
        self.player, self.begun = player, begun


class Reply:
    """An answer: the line and the player that it answers, its version (None if it names none), and its words."""

    def __init__(self, session, player, line, version, text):
        self.session, self.player, self.line, self.version = session, player, line, version
        self.lines = [text]

    def is_cut(self):
        """Returns whether more of the reply may have been lost: nothing came after it, and its session is broken."""
        return self.session.session.is_broken and self.session.replies[-1] is self


class Reading:
    """A session, taken apart: its replies, its notices, and its player from version to version."""

    def __init__(self, session):
        self.session, self.waiting = session, list(session.sent)
        self.replies, self.heard, self.spans, self.faults = [], {}, [], []
        self.player, self.seen, self.desk = None, session.begun or 0, None
        goes_on = session.begun is not None
        if not goes_on and session.read[:1] != [GREETING] and (session.read or not session.is_broken):
            self.faults.append(f"it is greeted with {session.read[:1]}")
        self.becomes(session.player)
        for text in session.read[0 if goes_on else 1:]:
            self.take(text)
        self.left = self.waiting[0] if self.waiting else None
        self.becomes(None)
        self.judge_end()

    def judge_end(self):
        """Checks that each line has an answer, and that no notice came without a player."""
        if self.waiting and not self.session.is_broken:
            self.faults.append(f"{self.left!r} has no answer")
        for version in self.heard:
            if not any(first < version <= last for first, last, _ in self.spans):
                self.faults.append(f"it hears of {version}, where it has no player")

    def take(self, text):
        """Reads one more line."""
        notice, reply = NOTICE.fullmatch(text), REPLY.fullmatch(text)
        if notice:
            self.hears(int(notice[1]), notice[2])
        elif reply or text in (FULL, LACKING):
            version = int(reply[1]) if reply else None
            self.is_answered(version, reply[2] if reply else text)
        elif self.replies:
            self.replies[-1].lines.append(text)
        else:
            self.faults.append(f"it reads {text!r}")

    def hears(self, version, text):
        """Notes a notice of another player's change."""
        if version <= self.seen:
            self.faults.append(f"it hears of {version} after {self.seen}")
        self.seen = max(version, self.seen)
        self.heard[version] = text

    def is_answered(self, version, text):
        """Notes the first line of the answer to the oldest unanswered line."""
        if not self.waiting:
            self.faults.append(f"{text!r} answers nothing")
            return
        reply = Reply(self, self.player, self.waiting.pop(0), version, text)
        self.replies.append(reply)
        if version is None:
            return
        if version < self.seen:
            self.faults.append(f"it is answered at {version} after {self.seen}")
        self.seen = max(version, self.seen)
        welcome = WELCOME.fullmatch(text)
        if welcome and reply.line.startswith("connect"):
            self.becomes(int(welcome[1]))

    def becomes(self, player):
        """Notes that from here on the session has another player, or is over."""
        if self.spans:
            self.spans[-1][1] = self.seen
        if player is not None:
            self.spans.append([self.seen, None, player])
            self.player = player

    def proofs(self):
        """Returns the proofs that it read whole."""
        whole = (it.lines[1:] for it in self.replies if it.lines[0] == "proof" and it.lines[-1] == "end")
        return ["".join(f"{line}\n" for line in lines) for lines in whole]
