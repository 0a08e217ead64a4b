#!/usr/bin/env python3
"""What the headline stands on: the definitions that are reached from the clauses of the program's calls, through the
definitions that these name. They are printed in reading order, file by file.

headline.py           looks whether docs/headline.md has the list as it is
headline.py --print   prints the list
headline.py --write   puts it into docs/headline.md
"""
from __future__ import annotations

import re
import sys
from collections.abc import Iterator
from functools import lru_cache
from pathlib import Path

TOP = Path(__file__).resolve().parent.parent
PAGE = TOP / "docs/headline.md"
BEGIN, END = "<!-- tools/headline.py --write -->\n", "<!-- end -->\n"
CALLS = re.compile(r"`(hpf_\w+)` `(\w+)`")
USE = re.compile(r"use Rattle\.(\w+)\.specs\.([\w.]+?)(?:\.\{([^}]*)\}| as (\w+))(?=[;\s]|$)")
HEAD = re.compile(
    r"^(?: *(?:(?:abbrev|unfoldable|unfolding) pub|pub (?:record|data)|record|data)|pub) ([^\s:{]+)", re.MULTILINE)
WORD = re.compile(r"(?<![\w.])([A-Za-z_][\w'-]*)(?:\.([A-Za-z_][\w'-]*))?")

# A definition: the file that it stands in, from the folder of the crates, and its name.
Definition = tuple[str, str]


def uses(text: str) -> dict[str, Definition]:
    """The names of this repository's definitions that a file brings in. Those of `declared` are types of the code. A file
    under another name has no name of its own."""
    known = {}
    for crate, path, listed, alias in USE.findall(text):
        if not (TOP / "crates" / crate).is_dir():
            continue
        parts = path.removesuffix(".TheVariants").split(".")
        imported = [alias] if alias else [it.strip() for it in listed.split(",")]
        if parts[0] == "declared":
            known.update({it: (f"{crate}/src/{'/'.join(parts[1:-1]) or 'lib'}.rt", parts[-1]) for it in imported})
            continue
        inner = parts if (TOP / "crates" / crate / "specs" / f"{'/'.join(parts)}.antt").is_file() else parts[:-1]
        file = f"{crate}/specs/{'/'.join(inner)}.antt"
        known.update({it: (file, "" if alias and inner == parts else parts[-1] if inner != parts else it) for it in imported})
    return known


def words(text: str, known: dict[str, Definition]) -> Iterator[Definition]:
    """The definitions that a text names, in order."""
    for word, member in WORD.findall(text):
        file, name = known.get(word, ("", ""))
        if name:
            yield file, name
        elif file and member in bodies(file):
            yield file, member


@lru_cache(maxsize=None)
def bodies(file: str) -> dict[str, str]:
    """The definitions of a file by their names. Constructors stand with their type."""
    text = re.sub(r"--.*", "", (TOP / "crates" / file).read_text(encoding="utf-8"))
    heads = [*HEAD.finditer(text)]
    found = {}
    for head, behind in zip(heads, [*heads[1:], None]):
        body = text[head.start():behind.start() if behind else len(text)]
        found[head[1]] = body
    return found


@lru_cache(maxsize=None)
def names(file: str) -> dict[str, Definition]:
    text = (TOP / "crates" / file).read_text(encoding="utf-8")
    known = uses(text)
    for name, body in bodies(file).items():
        known[name] = (file, name)
        if re.match(r" *(?:pub )?data", body):
            known.update({it: (file, name) for it in re.findall(r"^ +(?:pub )?(\w+) :", body, re.MULTILINE)})
    return known


def below(definition: Definition) -> Iterator[Definition]:
    """The definitions that one names, in order."""
    file, name = definition
    if file.endswith(".antt"):
        yield from words(bodies(file).get(name, ""), names(file))


def clauses(crate: str, call: str) -> Iterator[Definition]:
    """The definitions that the clauses of a call name, in order."""
    for path in sorted((TOP / "crates" / crate / "src").rglob("*.rt")):
        text = path.read_text(encoding="utf-8")
        begun = re.search(rf"^pub fn {call}\b.*?^{{", text, re.MULTILINE | re.DOTALL)
        if begun:
            yield from words(re.sub(r"//.*", "", begun[0]), uses(text))
            return
    sys.exit(f"headline.py: {crate} has no call {call}")


def reached(calls: list[tuple[str, str]]) -> dict[str, list[str]]:
    """The definitions that are reached, by their files, in reading order."""
    files: dict[str, list[str]] = {}
    due = [it for crate, call in calls for it in clauses(crate, call)][::-1]
    seen = set()
    while due:
        file, name = due.pop()
        if file.endswith(".antt"):
            file, name = names(file).get(name, (file, name))
        if (file, name) not in seen:
            seen.add((file, name))
            files.setdefault(file, []).append(name)
            due.extend([*below((file, name))][::-1])
    return files


def subject(file: str) -> str:
    """What a file says of itself in its first line."""
    first = (TOP / "crates" / file).read_text(encoding="utf-8").split("\n", maxsplit=1)[0]
    return re.sub(r"^(?:--|//!) ?", "", first).replace("|", "\\|") if first.startswith(("--", "//!")) else ""


def tables(page: str) -> str:
    files = reached(CALLS.findall(page.partition(BEGIN)[0]))
    lines = ["| file | words | subject |", "|---|---|---|"]
    lines += [f"| `{file}` | {', '.join(words)} | {subject(file)} |" for file, words in files.items()]
    rest = sorted(str(path.relative_to(TOP / "crates")) for path in (TOP / "crates").glob("*/specs/**/*.antt")
                  if path.name != "Lib.antt" and str(path.relative_to(TOP / "crates")) not in files)
    lines += ["", "These files hold machinery alone: no word of the clauses stands on them.", ""]
    lines += [f"- `{file}`" for file in rest]
    return "".join(f"{line}\n" for line in lines)


def main() -> None:
    page = PAGE.read_text(encoding="utf-8")
    front, begin, rest = page.partition(BEGIN)
    told, end, behind = rest.partition(END)
    if not begin or not end:
        sys.exit("headline.py: docs/headline.md has no place for the list")
    due = tables(page)
    if sys.argv[1:] == ["--print"]:
        print(due, end="")
    elif sys.argv[1:] == ["--write"]:
        PAGE.write_text(front + begin + due + end + behind, encoding="utf-8")
    elif told != due:
        lines = set(told.splitlines()) ^ set(due.splitlines())
        sys.exit("headline.py: docs/headline.md differs in\n" + "\n".join(sorted(lines)))


if __name__ == "__main__":
    main()
