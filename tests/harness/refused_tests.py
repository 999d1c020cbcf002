"""Refuses each request for memory of a test in Rattle in turn. The test must pass all the same."""
import os

from harness.parts import Skipped, part
from harness.programs import NotBuilt, tests_of
from harness.runs import Run
from harness.trial import Trial, tell

TESTS = (
    "sessions::each_line_is_told_once",
    "shared::says_are_taken_in_without_memory",
    "workers::eight_workers_may_run_out_of_memory",
)


def tests_program():
    """Returns the built tests of mud_tests. Only the gate builds them, so they may be missing elsewhere."""
    try:
        return tests_of("mud_tests")
    except NotBuilt as error:
        if "IN_GATE" in os.environ:
            raise
        raise Skipped(error) from None


def passes(given, _=None):
    return given[0] == 0


@part("refused-tests", "a test in Rattle passes while each of its requests for memory is refused in turn")
def refused_tests(count):
    path = tests_program()
    for test in TESTS:
        trial = Trial(Run("mud_tests", [test], b"", test), "refuse", path)
        felt, faults = trial.in_turn(passes)
        if not passes(trial.whole):
            faults.append("it fails with ample memory")
        if not trial.calls:
            faults.append("it makes no request for memory")
        tell(count, "refused tests", trial, felt, faults)
