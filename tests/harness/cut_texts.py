"""mud_check reads a history and a certificate that it accepts, cut after each of their bytes but the last. It must find
each cut: in the history's first line, in the rest of the history, or in the line of the certificate where it is."""
import subprocess

from harness.parts import part
from harness.programs import program
from harness.runs import FREE_EXITS, LIBRARY, history_and_proof

SECONDS = 20


def wanted(history, proof, cut):
    """Returns the status and the verdict for the first `cut` bytes of both."""
    if cut == len(history) + len(proof):
        return 0, b"accepted\n"
    if cut <= history.index(b"\n"):
        return 2, b"unreadable: not a history\n"
    if cut < len(history):
        return 2, b"unreadable: history without end\n"
    return 2, b"unreadable: proof line %d\n" % (proof[: cut - len(history)].count(b"\n") + 1)


def faults_of(history, proof):
    """Returns what is wrong, as texts."""
    text, faults = history + proof, []
    for cut in range(len(text) + 1):
        ran = subprocess.run([program("mud_check")], input=text[:cut], capture_output=True, timeout=SECONDS)
        given, right = (ran.returncode, ran.stdout), wanted(history, proof, cut)
        if given != right:
            faults.append(f"{cut} bytes: {given}, and not {right}")
    return faults


@part("cut-texts", "a history with a certificate is cut after each byte, and each cut is found")
def cut_texts(count):
    for form, case in (("one", LIBRARY), ("two", FREE_EXITS)):
        faults = faults_of(*history_and_proof(*case))
        count(f"cut texts, form {form}: {', '.join(case)}", not faults, "; ".join(faults[:5]))
