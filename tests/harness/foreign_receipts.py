"""A receipt of another journal has another type. So the compiler refuses it at a gate and at a held text.

tests/foreign-receipts/own.txt has a function with the receipts of two journals. It is proved as it stands. With the
other receipt in one of two places it does not compile.
"""
import os
import tempfile

from harness import prover
from harness.parts import Skipped, part
from harness.programs import TOP, NotBuilt

CRATE, LIKE = "mud_foreign", "mud_client"
# Each change of the function, by the name of its test.
CHANGES = {
    "a gate opens with the receipt of another journal": ("gate.publish(receipt);", "gate.publish(other);"),
    "a text goes by the receipt of another journal": ("text.open(receipt)", "text.open(other)"),
}
# The compiler's words for an argument of another type.
REFUSED = "mismatched-types"


def said_of(text):
    """Returns the prover's report on the function in this text."""
    with tempfile.TemporaryDirectory() as folder:
        os.mkdir(f"{folder}/src")
        with open(f"{folder}/src/lib.rt", "w", encoding="utf-8") as file:
            file.write(f"//! Receipts of two journals.\n#![tactic(auto)]\n\n{text}")
        return prover.check_own(CRATE, LIKE, "tried", folder)


def count_all(count):
    with open(f"{TOP}/tests/foreign-receipts/own.txt", encoding="utf-8") as file:
        own = file.read()
    said = said_of(own)
    count("the journal's own receipt", said.is_proved(), said.shown())
    for name, (old, new) in CHANGES.items():
        said = said_of(own.replace(old, new))
        is_refused = own.count(old) == 1 and said.status != 0 and any(REFUSED in line for line in said.lines)
        count(name, is_refused, said.shown())


@part("foreign-receipts", "the compiler refuses the receipt of another journal", wants_proof=True)
def foreign_receipts(count):
    try:
        count_all(count)
    except NotBuilt as error:
        # outside of the gate the libraries may be missing
        if "IN_GATE" in os.environ:
            raise
        raise Skipped(error) from None
