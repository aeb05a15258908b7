"""What the rules of the check are written with."""

from dataclasses import dataclass


@dataclass(frozen=True)
class Rule:
    """A sentence of the check, with worlds that fail it and worlds that just pass it.

    `fails` has a name, the place that is named and the input; `passes` has a name and the input.
    """

    says: str
    fails: list
    passes: list
