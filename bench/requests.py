"""Writes realistic request lines for the benchmark.

    python3 bench/requests.py COUNT > FILE

Measured curves of doors, windows, walls and floors from the reference's seeded inputs: four lines of
eight are airborne thirds, two impact thirds, one airborne and one impact octaves; some have limit
bands.
"""

import sys
from pathlib import Path

sys.dont_write_bytecode = True
sys.path.insert(0, str(Path(__file__).resolve().parents[1] / "tests" / "reference"))

from paper.quantities import A1, A3, I1, I3
from inputs.curves import limit_marks, measured
from inputs.requests import any_key, line_of
from inputs.seeded import Seeded

KINDS = (A3, A3, A3, A3, I3, I3, A1, I1)


def request(seeded):
    kind = seeded.pick(KINDS)
    marks = limit_marks(seeded, kind.bands) if seeded.chance(4) else 0
    return line_of(kind, any_key(seeded), measured(seeded, kind), marks)


def main():
    seeded = Seeded(20050121)
    for _ in range(int(sys.argv[1])):
        sys.stdout.buffer.write(request(seeded))


if __name__ == "__main__":
    main()
