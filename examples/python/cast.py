"""A cast of 60 in 56 hex at 48,000 samples a second: which circuits it takes, and what the checker says.

Prints what the example in C prints. Usage: python3 examples/python/cast.py, after `make lib`.
"""

import pathlib
import sys

sys.path.insert(0, str(pathlib.Path(__file__).resolve().parents[2] / "bindings" / "python"))
try:
    from rimesatchel import Refused, check_plan, plan
except ImportError as missing:
    sys.exit(f"cast.py: {missing}")

FORMAT, CAST, FREQUENCY = 0x56, 60, 48000
ANSWERS = {"yes": "yes", "share": "no, the share of circuit", "allowance": "no, the allowance of circuit", "sum": "no, the sum"}


def planned_over(circuits: int) -> tuple[int, list[int]]:
    """The refusal's number, and the shares."""
    try:
        return 0, plan(FORMAT, CAST, circuits)
    except Refused as refused:
        return refused.number, []


def check(shares: list[int], allowances: list[int]) -> None:
    print("shares", *shares)
    print("allowances", *allowances)
    try:
        verdict = check_plan(FORMAT, CAST, FREQUENCY, shares, allowances)
        said = [ANSWERS[verdict.answer], *([] if verdict.circuit is None else [str(verdict.circuit)])]
    except Refused as refused:
        said = ["refused", str(refused.number)]
    print("the checker:", *said, end="\n\n")


def main() -> None:
    print("planned over four circuits: refused", planned_over(4)[0])
    refusal, planned = planned_over(6)
    print("planned over six circuits: refused", refusal)
    print("shares", *planned, end="\n\n")
    check(planned[:5], [48000] * 5)
    check(planned, [48000] * 6)
    check(planned[:5], [48000, 48000, 24000, 48000, 48000])
    check([12, 12, 6, 12, 12, 6], [48000, 48000, 24000, 48000, 48000, 24000])
    check([12, 12, 6, 12, 12, 5], [48000, 48000, 24000, 48000, 48000, 24000])


if __name__ == "__main__":
    main()
