"""How often `pack` tries a change, as far as its plan tells."""
from __future__ import annotations


TYPE_CHECKING = False
if TYPE_CHECKING:
    from typing import Sequence


def bounds(rounds: Sequence[Sequence[str]]) -> tuple[int, int]:
    """The least and the greatest number of tries by which packing comes to these rounds. The first round tries each
    change, and each later one those that it takes, and at most those that remain: which of them it passes over no plan
    tells."""
    changes = left = sum(len(round_) for round_ in rounds)
    greatest = 0
    for round_ in rounds:
        greatest += left
        left -= len(round_)
    least = changes + sum(len(round_) for round_ in rounds[1:])
    return least, greatest
