#!/usr/bin/env python3
"""Spells the names of goals and steps in proof files with the underscores of the source, once.

A goal is named after the source: `returns-then-is-text` was the older spelling of `returns-then-is_text`.
Arguments: the crates to turn, at the top of the checkout.
"""
import pathlib
import re
import sys

WORD = re.compile(r"(?<![\w\-'])[A-Za-z_][\w\-']*(?![\w\-'])")


def own_lemmas(crates):
    """The names that proof files declare themselves, which stay."""
    names = set()
    for file in crates.rglob("*.antt"):
        if "out" in file.parts:
            continue
        for line in file.read_text(encoding="utf8").splitlines():
            found = re.match(r"\s*(?:abbrev |unfoldable )?(?:pub )?([\w\-']+)\s*(?:\{[^}]*\}\s*|\([^)]*\)\s*)*:", line)
            if found and not re.search(r":\s*goal\.", line):
                names.add(found.group(1))
            names.update(re.findall(r"[\w\-']+", " ".join(re.findall(r"^use .*\{(.*)\}", line))))
    return names


def turn_crate(crate, keep):
    words = set()
    for file in (crate / "src").rglob("*.rt"):
        words.update(w for w in re.findall(r"[a-z][a-z0-9]*(?:_[a-z0-9]+)+|[A-Z][A-Z0-9]*(?:_[A-Z0-9]+)+", file.read_text(encoding="utf8")))
    words = sorted(words, key=len, reverse=True)
    pattern = re.compile(r"(?<![A-Za-z0-9_])(" + "|".join(w.replace("_", "-") for w in words) + r")(?![A-Za-z0-9_])") if words else None
    for folder in (crate / "proofs").rglob("*"):
        if folder.suffix != ".antt" or folder.parent == crate / "proofs" or pattern is None:
            continue
        old = folder.read_text(encoding="utf8")

        def one(match):
            word = match.group(0)
            if "-" not in word or word in keep:
                return word
            return pattern.sub(lambda m: m.group(1).replace("-", "_"), word)

        lines = [line if line.startswith(("use ", "--")) else WORD.sub(one, line) for line in old.splitlines(keepends=True)]
        new = "".join(lines)
        if new != old:
            folder.write_text(new, encoding="utf8")


def main():
    crates = pathlib.Path("crates")
    keep = own_lemmas(crates)
    for name in sys.argv[1:]:
        turn_crate(crates / name, keep)


if __name__ == "__main__":
    main()
