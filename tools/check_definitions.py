#!/usr/bin/env python3
"""Compares the public words of the crates' `specs/` with docs/DEFINITIONS.md, in both directions.

Each public word of specs/ (those of specs/Lemmas/ and specs/Inside/ excepted) has to be in backticks in its crate's
section of docs/DEFINITIONS.md or in crates/NAME/README.md. Each name in backticks in such a section has to occur in the
specs/ or src/ of a crate. It prints what is missing, and then ends with status 1.
"""

import os
import re
import sys

TOP = os.path.dirname(os.path.dirname(os.path.abspath(__file__)))
NOT_RETOLD = ("Lemmas", "Inside", "declared")
NAME = re.compile(r"[A-Za-z_][\w'-]*")
DECLARED = re.compile(r"^(?:abbrev pub|unfoldable pub|pub record|pub data|pub(?! mod\b))\s+([^\s:({]+)", re.M)


def text_of(path):
    with open(os.path.join(TOP, path), encoding="utf-8") as file:
        return file.read()


def files(folder, ending, left_out=()):
    """The files below a folder, by their paths from the top."""
    for path, folders, names in os.walk(os.path.join(TOP, folder)):
        folders[:] = sorted(set(folders) - set(left_out))
        yield from (os.path.relpath(os.path.join(path, name), TOP) for name in sorted(names) if name.endswith(ending))


def crates():
    """The crates of the repository."""
    lines = (line.partition("#")[0].partition(":")[0].split() for line in text_of("crates.txt").splitlines())
    return [words[0] for words in lines if words]


def in_backticks(text):
    """What is in backticks outside blocks of code."""
    return re.findall(r"`([^`\n]+)`", re.sub(r"^```.*?^```", "", text, flags=re.M | re.S))


def names_alone(spans):
    """The names of the spans that are nothing but a name. `Type::method` is two."""
    return {name for span in spans if all(map(NAME.fullmatch, span.split("::"))) for name in span.split("::")}


def sections(names):
    """The text of each crate's sections of docs/DEFINITIONS.md, by crate."""
    found = dict.fromkeys(names, "")
    for section in re.split(r"^## ", text_of("docs/DEFINITIONS.md"), flags=re.M)[1:]:
        for name in re.findall(r"\w+", section.partition("\n")[0]):
            if name in found:
                found[name] += section.partition("\n")[2]
    return found


def main():
    names = crates()
    said = sections(names)
    folders = [f"crates/{name}/{part}" for name in names for part in ("specs", "src")]
    sources = "\n".join(text_of(path) for folder in folders for path in files(folder, (".antt", ".rt")))
    occurring = {*NAME.findall(sources), *re.findall(r"\w+", sources), *names}
    wrong = 0
    for name in names:
        readme = f"crates/{name}/README.md"
        more = text_of(readme) if os.path.exists(os.path.join(TOP, readme)) else ""
        told = {word for span in in_backticks(said[name]) + in_backticks(more) for word in re.split(r"[\s().,:]+", span)}
        for path in files(f"crates/{name}/specs", ".antt", NOT_RETOLD):
            for word in DECLARED.findall(text_of(path)):
                if word not in told:
                    wrong += 1
                    print(f"{path}: {word} is not retold")
        for word in sorted(names_alone(in_backticks(said[name])) - occurring):
            wrong += 1
            print(f"docs/DEFINITIONS.md, {name}: there is no {word}")
    return 1 if wrong else 0


if __name__ == "__main__":
    sys.exit(main())
