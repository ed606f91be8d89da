"""Seeded inputs of the stored files: realistic, at the edges, damaged.

`inputs_of(operation)` is the list of an operation's cases, each a list of whole
numbers that starts with the operation. Every operation has its own seed, so
that the cases of one do not depend on which others are asked for.
"""

from .lifts import lift_inputs
from .ratings import rate_inputs
from .readings import rate_reading_inputs, reading_inputs, time_inputs
from .rooms import (
    correction_inputs, cover_inputs, grade_inputs, octave_inputs, raw_inputs, specimen_inputs)
from .seeded import Seeded

SEED = 5012120050

MAKERS = {
    1: rate_inputs,
    2: reading_inputs,
    3: rate_reading_inputs,
    4: time_inputs,
    5: correction_inputs,
    6: correction_inputs,
    7: raw_inputs,
    8: octave_inputs,
    9: specimen_inputs,
    10: cover_inputs,
    11: grade_inputs,
    12: lift_inputs,
}


def inputs_of(operation):
    """All cases of an operation."""
    seeded = Seeded(SEED + operation)
    return [[operation, *numbers] for numbers in MAKERS[operation](seeded)]
