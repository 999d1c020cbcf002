"""Each thread that a program asks for can't be started, in turn: only that one, or all from it on. Each run must give
the output of a run with all threads."""
from harness.inputs import session
from harness.parts import part
from harness.runs import script, small_sessions
from harness.trial import Trial, tell

WORKERS = ("--workers", "8")


def kept_in_turn(count, one, least):
    """Fails each thread of a session with eight workers, which asks for at least this many."""
    trial = Trial(script(one, *WORKERS), "fail_threads")
    felt, faults = trial.in_turn(lambda given, _: given == trial.whole, ("FAILED_FROM", "FAILED_CALL"))
    if trial.calls < least:
        faults.append(f"it asks for {trial.calls} threads")
    tell(count, "few threads", trial, felt, faults)


@part("few-threads", "workers that can't be started change no answer")
def few_threads(count):
    for name in ("meetings-by-eight", "lowest-exit-backward-by-eight"):
        kept_in_turn(count, session(name), 1)


@part("few-threads-everywhere", "few-threads over all small sessions", on_demand=True)
def few_threads_everywhere(count):
    for one in small_sessions():
        kept_in_turn(count, one, 0)
