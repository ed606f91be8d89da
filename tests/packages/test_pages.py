"""The pages say what is so: the picture of the crates, and what README.md shows of lines."""

import re
import subprocess
import unittest
from pathlib import Path

ROOT = Path(__file__).resolve().parents[2]


def crates():
    """What each crate of this repository stands on, of those that are in it."""
    lines = [line.partition(":") for line in (ROOT / "crates.txt").read_text().splitlines() if line[:1] not in "#"]
    names = {name for name, _, _ in lines}
    return {name: set(others.split()) & names for name, _, others in lines}


def all_below(name, below):
    return below[name].union(*(all_below(other, below) for other in below[name]))


def height(name, below):
    return 1 + max((height(other, below) for other in below[name]), default=-1)


class Picture(unittest.TestCase):
    def setUp(self):
        page = (ROOT / "CONTRIBUTING.md").read_text()
        (self.picture,) = (block for block in re.findall(r"^```\n(.*?)^```$", page, flags=re.M | re.S) if "quantity -> laws" in block)

    def test_crates(self):
        """Each crate once, at its height, with what it stands on but for what that stands on itself."""
        below = crates()
        wanted = {}
        for name, others in below.items():
            direct = {other for other in others if not any(other in all_below(one, below) for one in others)}
            wanted[name] = (height(name, below), direct)
        drawn = []
        for line in self.picture.splitlines():
            level = re.match(r" *(\d+) ", line)
            for name, others in re.findall(r"(\w+) ->((?: \w+(?:, \w+)*)?)(?=  |$)", line):
                drawn.append((name, (int(level[1]), set(others.replace(",", " ").split()))))
        self.assertEqual(len(drawn), len(wanted))
        self.assertEqual(dict(drawn), wanted)


class Lines(unittest.TestCase):
    def test_the_readme_shows_what_the_command_answers(self):
        """Each request of its lines, beside its answer."""
        rows = re.findall(r"^((?:A|I)[13]<T>\S+) +(\S+)$", (ROOT / "README.md").read_text(), flags=re.M)
        self.assertEqual(len(rows), 2)
        given = "".join(request + "\n" for request, _ in rows).replace("<T>", "\t")
        done = subprocess.run([ROOT / "target" / "native" / "rate"], input=given, capture_output=True, text=True,
                              check=True)
        self.assertEqual(done.stdout, "".join(answer + "\n" for _, answer in rows).replace("<T>", "\t"))


if __name__ == "__main__":
    unittest.main()
