"""Checks printed certificates: mud_check reads each one against the history of the same world."""
import os
import subprocess
import tempfile

from harness.programs import program

SECONDS = 60


def checked(history, proof):
    """Returns the status and the output of `mud_check HISTORY PROOF`."""
    with tempfile.TemporaryDirectory() as folder:
        files = []
        for name, text in (("history", history), ("proof", proof)):
            files.append(os.path.join(folder, name))
            with open(files[-1], "wb") as file:
                file.write(text)
        ran = subprocess.run([program("mud_check"), *files], stdout=subprocess.PIPE, timeout=SECONDS, check=False)
    return ran.returncode, ran.stdout


def refused(history, proofs):
    """Returns the proofs that are not accepted, each with the checker's words, as texts."""
    verdicts = ((proof, checked(history, proof)) for proof in proofs)
    return [f"{verdict} for {proof}" for proof, verdict in verdicts if verdict != (0, b"accepted\n")]
