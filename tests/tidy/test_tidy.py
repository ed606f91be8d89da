#!/usr/bin/env python3
"""Tests of tidy.py: a small repository in which each kind of thing that it finds stands once, beside its good neighbours."""

import sys
import tempfile
import unittest
from pathlib import Path

sys.dont_write_bytecode = True

from tidy import untidy

FILES = {
    "crates.txt": "base:\nbeside:\ntop: base beside\n",
    "docs/PROOFS.md": "The theorem is `Laws.told` of `top`, by `gone` and `specs/`.\n",
    "crates/base/src/lib.rt": (
        "ghost use Rattle.std.specs.Prelude.{◌≡◌};\n"
        "ghost use Rattle.base.specs.Words.{doubled, halved};\n"
        "pub fn double(n: u32) -> u32\n    ensures { result ≡ doubled n }\n{\n    n + n\n}\n"
        "fn lost(n: u32) -> u32 {\n    n\n}\n"
    ),
    "crates/base/specs/Words.antt": (
        "use Rattle.std.specs.Prelude.{ℕ, ◌+◌, ◌-◌}\n"
        "unfoldable pub doubled : ℕ → ℕ\ndoubled n-s = n-s + n-s\n\n"
        "abbrev pub halved : ℕ → ℕ\nhalved n = n\n\n"
        "pub record Pair : Type 0 where\n  pub left : ℕ\n  pub unread : ℕ\n\n"
        "pub data Side : Type 0 where\n  near : Side\n  far : Side\n"
    ),
    "crates/beside/src/lib.rt": "// no code\n",
    "crates/top/src/lib.rt": "use base::double;\nfn twice(n: u32) -> u32 {\n    double(double(n))\n}\npub fn four() -> u32 {\n    twice(1)\n}\n",
    "crates/top/src/other.rt": (
        "use crate::four as quarter;\nuse crate::six;\n"
        "fn five() -> u32 {\n    quarter() + five()\n}\n"
        "fn six() -> u32 {\n    6\n}\n"
    ),
    "crates/top/proofs/Laws.antt": (
        "-- a comment names forgotten\n"
        "use Rattle.base.specs.Words.{doubled, Pair, Side}\n\n"
        "helper : Pair → Side\nhelper p = p.left\n\n"
        "pub told : doubled\ntold = helper\n\n"
        "pub forgotten : doubled\nforgotten = forgotten\n"
    ),
    "crates/top/proofs/four/Invariants.antt": (
        "-- `top::four` ends.\nuse Rattle.top.proofs.four.Given as goal\n\n"
        "abbrev pub invariant-loop : goal.invariant-loop\ninvariant-loop l = record {\n  within : l;\n  beyond :\n    l;\n}\n"
    ),
    "crates/top/proofs/four/Answers.antt": "-- `top::four` meets its contract.\npub returns : goal.returns\nreturns c = c\n",
    "crates/top/proofs/twice/Answers.antt": (
        "-- `base::twice` meets its contract.\n-- src/lib.rt:2:1\n"
        "aside : ℕ\naside = 1\n\npub returns : goal.returns\nreturns c = c\n"
    ),
    "crates/top/proofs/six/Proof.antt": "-- `top::six` meets its contract.\npub six_spec : statement\nsix_spec = close\n",
    "crates/top/out/proofs/Made.antt": "pub made : ℕ\nmade = 1\n",
}

FOUND = {
    "crates/base/specs/Words.antt:10: nothing cites unread",
    "crates/top/proofs/Laws.antt:10: nothing cites forgotten",
    "crates/base/specs/Words.antt:1: ◌-◌ is imported and not used",
    "crates/base/src/lib.rt:2: halved is imported and not used",
    "crates/base/src/lib.rt:8: nothing calls lost",
    "crates/top/src/other.rt:3: nothing calls five",
    "crates/top/src/other.rt:6: nothing calls six",
    "crates.txt:3: top does not use beside",
    "docs/PROOFS.md:1: there is no gone",
    "crates/top/proofs/twice/Answers.antt:1: the first line does not name top::twice",
    "crates/top/proofs/twice/Answers.antt:2: a position in the code",
    "crates/top/proofs/twice/Answers.antt:3: nothing cites aside",
}


class Tidy(unittest.TestCase):
    def found(self, files):
        with tempfile.TemporaryDirectory() as folder:
            root = Path(folder)
            for name, text in files.items():
                (root / name).parent.mkdir(parents=True, exist_ok=True)
                (root / name).write_text(text)
            return set(untidy(root))

    def test_each_kind_is_found_and_nothing_else(self):
        self.assertEqual(self.found(FILES), FOUND)

    def test_a_theorem_that_no_page_names_is_found(self):
        silent = {**FILES, "docs/PROOFS.md": "The theorem is told.\n"}
        self.assertIn("crates/top/proofs/Laws.antt:7: nothing cites told", self.found(silent))

    def test_ghost_fields_cite_and_functions_are_called_in_every_form(self):
        text = (
            FILES["crates/base/src/lib.rt"]
            + "struct Half {\n    n: u32,\n    ghost half: { n ≡ halved n },\n}\n"
            + "fn once<K>(n: u32) -> Option<u32> {\n    Some(n).map(lost)\n}\n"
            + "fn more(n: u32) -> u32 {\n    once::<u32>(more(n))\n}\n"
        )
        found = self.found({**FILES, "crates/base/src/lib.rt": text})
        self.assertEqual([line for line in sorted(found) if "crates/base/src" in line], ["crates/base/src/lib.rt:18: nothing calls more"])


if __name__ == "__main__":
    unittest.main()
