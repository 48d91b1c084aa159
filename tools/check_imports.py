#!/usr/bin/env python3
"""Refuses imports of another crate's proofs, except of the one module that a crate offers to its callers.

What a crate's proofs cite of another crate's is in that crate's proofs/CallerLemmas.antt, or is a law: the contract of
a public function. It prints each other import of `Rattle.CRATE.proofs`, and then ends with status 1. The libraries of the
kit are no crates of this repository, so their proofs may be cited.
"""

import os
import re
import sys

import check_definitions

IMPORTED = re.compile(r"\bRattle\.(\w+)\.proofs(?!\.CallerLemmas\b)[\w.]*")


def main():
    names = check_definitions.crates()
    wrong = 0
    for name in names:
        for path in check_definitions.files(f"crates/{name}", (".antt", ".rt"), ("out",)):
            for found in IMPORTED.finditer(check_definitions.text_of(path)):
                if found[1] != name and found[1] in names:
                    wrong += 1
                    print(f"{path}: {found[0].rstrip('.')}")
    return 1 if wrong else 0


if __name__ == "__main__":
    sys.exit(main())
