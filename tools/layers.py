#!/usr/bin/env python3
"""Looks whether crates.txt and docs/layers.md tell the layers as they are: layers.py [TOP].

- crates.txt names each crate behind those that it stands on, and docs/layers.md has the same crates in the same order, with
  the same crates of the repository below each.
- docs/layers.md names each function that a crate's code takes from another crate, and none that isn't there.
- No file cites the proofs of another crate.
"""
from __future__ import annotations

import re
import sys
from collections.abc import Iterator
from pathlib import Path

TOP = Path(sys.argv[1] if len(sys.argv) > 1 else Path(__file__).parent.parent).resolve()
USE = re.compile(r"^(?:pub(?:\(\w+\))? )?use (\w+)::([^;]+);", re.MULTILINE)
PROOFS = re.compile(r"Rattle\.(\w+)\.proofs\b")
CALL = re.compile(r"`(?:(\w+)::)?(\w+)`")


def read(path: Path) -> str:
    return path.read_text(encoding="utf-8")


def crates() -> dict[str, list[str]]:
    """The crates in the order of crates.txt, with all that each stands on."""
    lines = (line.partition("#")[0] for line in read(TOP / "crates.txt").splitlines())
    rows = (line.partition(":") for line in lines if line.strip())
    return {head.split()[0]: below.split() for head, _, below in rows}


def layers() -> dict[str, tuple[list[str], str]]:
    """The rows of docs/layers.md: what each crate stands on, and its contract."""
    rows = (line.split("|")[1:-1] for line in read(TOP / "docs/layers.md").splitlines() if line.startswith("| `"))
    return {name.strip(" `"): (re.findall(r"\w+", below), contract) for name, _, below, contract in rows}


def files(crate: str, *kinds: str) -> Iterator[Path]:
    for kind in kinds:
        yield from sorted((TOP / "crates" / crate / kind).rglob("*.*t*"))


def taken(crate: str, known: dict[str, list[str]]) -> Iterator[tuple[str, str]]:
    """The functions of other crates that a crate's code brings in: names in lower case that aren't modules."""
    for path in files(crate, "src"):
        for other, names in USE.findall(read(path)):
            if other in known and other != crate:
                for name in re.findall(r"\w+(?!\w|::)", names):
                    if name.islower() and not (TOP / "crates" / other / "src" / f"{name}.rt").is_file():
                        yield other, name


def defines(crate: str, kind: str, name: str) -> bool:
    text = "".join(map(read, files(crate, "src")))
    type_is_there = not kind or re.search(rf"\b(?:struct|enum|trait) {kind}\b", text)
    return bool(type_is_there and re.search(rf"\bfn {name}\b", text))


def faults() -> Iterator[str]:
    known, told = crates(), layers()
    names = list(known)
    if names != list(told):
        yield f"docs/layers.md has the crates {' '.join(told)}, and crates.txt {' '.join(names)}"
    for place, (crate, below) in enumerate(known.items()):
        own = [name for name in below if (TOP / "crates" / name).is_dir()]
        for name in own:
            if name not in names[:place]:
                yield f"crates.txt: {crate} stands ahead of {name}"
        written, contract = told.get(crate, (own, ""))
        if sorted(set(written) & set(names)) != sorted(own):
            yield f"docs/layers.md: {crate} stands on {' '.join(own) or 'none'}"
        for kind, call in CALL.findall(contract):
            if call[0].islower() and not any(defines(it, kind, call) for it in (crate, *own)):
                yield f"docs/layers.md: {crate} has no {call}"
        for other, call in sorted(set(taken(crate, known))):
            if call not in {call for _, call in CALL.findall(told.get(other, ([], ""))[1])}:
                yield f"docs/layers.md: {crate} calls {call} of {other}"
        for path in files(crate, "src", "specs", "proofs"):
            for other in sorted(set(PROOFS.findall(read(path))) - {crate, "std"}):
                if other in known:
                    yield f"{path.relative_to(TOP)} cites the proofs of {other}"


if __name__ == "__main__":
    found = list(faults())
    print("".join(f"layers.py: {fault}\n" for fault in found), end="", file=sys.stderr)
    sys.exit(bool(found))
