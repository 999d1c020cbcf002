"""The search for few lines of a crowd with wrong answers: over steps with known faults, and over a crowd."""
import random
from unittest import mock

from harness.crowd import Crowd
from harness.parts import part
from harness.plain_world import World
from harness.programs import program
from harness.server import Server
from harness.shrinking import Step, faults_of, in_order, shrunk

CLIENTS, SECONDS, PACE = 4, 2, 50
RIGHT_REPLY = World.reply


def wrong_reply(world, change):
    """Returns the plain world's answer to a change, a wrong one if it locks an object."""
    return "lokked" if change.startswith("lock ") else RIGHT_REPLY(world, change)


def count_known(count):
    """Tests steps with three among them that are wrong together, in their order."""
    chosen = [Step(1, "a"), Step(2, "b"), Step(1, "c")]
    others = random.Random(0).choices([Step(at, line) for at in range(9) for line in "xyz"], k=500)
    steps = [*others[:100], chosen[0], *others[100:300], chosen[1], chosen[2], *others[300:]]
    tried = []

    def is_wrong(some):
        tried.append(len(some))
        return [step for step in some if step in chosen] == chosen

    small = shrunk(steps, is_wrong)
    count("shrinking: to what is wrong", small == chosen, small)
    count("shrinking: in few tries", len(tried) < 200, len(tried))
    count("shrinking: what can't be smaller", shrunk(chosen, is_wrong) == chosen)
    count("shrinking: within its time", shrunk(steps, is_wrong, seconds=0) == steps)


def count_played(count):
    """Tests a crowd whose lines are played again one after the other, with right answers and with a judge that errs."""
    with Server(program("mud_serve"), console=True) as server:
        crowd = Crowd(server, SECONDS, PACE)
        faults, _ = crowd.play_all(CLIENTS)
        server.type(b"stop\n")
        _, printed = server.end()
    steps = in_order(crowd.sessions, printed.decode())
    sent = sorted(line for session in crowd.sessions for line in session.sent)
    count("shrinking: each line of a crowd", not faults and sorted(step.line for step in steps) == sent)
    again = faults_of(steps)
    count("shrinking: one after the other", not again, again)
    locks = [Step(1, "connect Ann"), Step(1, "@create lamp"), Step(1, "@lock lamp with me")]
    with mock.patch.object(World, "reply", wrong_reply):
        small = shrunk([*steps, *(Step(99, line) for _, line in locks)], faults_of, seconds=60)
        count("shrinking: a crowd with a mistake", 0 < len(small) <= len(locks) and faults_of(small), small)


@part("shrinking", "a crowd that was answered wrongly is made as small as can be")
def shrinking(count):
    count_known(count)
    count_played(count)
