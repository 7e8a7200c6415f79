#!/usr/bin/env python3
"""Spells the names of goals and steps in proofs/F/ as today's prover makes them: names of the source keep their underscores.

usage: python3 tools/goal_names.py          at the top of the repository, once, after tools/snake_names.py
"""
import os
import re

NAME = r"[\w'·-]"
STD = ["ok_or", "is_empty", "is_some", "is_none", "is_ok", "is_err", "unwrap_or", "from_residual", "as_slice", "as_str", "push_str", "is_ascii_digit", "split_at", "checked_mul", "checked_add", "saturating_add", "checked_sub", "checked_neg", "write_str", "write_fmt", "abs_diff", "unsigned_abs", "rem_euclid", "wrapping_add", "wrapping_mul", "try_from", "map_err", "is_ascii", "starts_with", "strip_prefix", "split_first", "strip_suffix", "as_bytes", "to_bytes", "try_reserve", "with_capacity"]


def walk(end):
    for folder, dirs, names in os.walk("crates"):
        dirs[:] = sorted(d for d in dirs if d != "out")
        for name in sorted(names):
            if name.endswith(end):
                yield os.path.join(folder, name)


def read(path):
    with open(path, encoding="utf-8") as f:
        return f.read()


def main():
    words = set(STD)
    for path in walk(".rt"):
        code = "\n".join(line for line in read(path).split("\n") if not line.strip().startswith(("//", "ghost", "ensures", "requires")))
        words.update(w for w in re.findall(r"\b[a-z][a-z0-9]*(?:_[a-z0-9]+)+\b", code))
    pairs = sorted(((w.replace("_", "-"), w) for w in words), key=lambda p: -len(p[0]))
    pairs += [("in-ok", "in_ok"), ("in-err", "in_err")]
    for path in walk(".antt"):
        parts = path.split(os.sep)
        if len(parts) < 5 or parts[2] != "proofs" or parts[-1] not in ("Answers.antt", "Invariants.antt", "Proof.antt"):
            continue
        text = read(path)

        def turn(m):
            name = m.group()
            for old, new in pairs:
                name = re.sub("(?<![A-Za-z0-9_])" + old + "(?![A-Za-z0-9_])", new, name)
            return name

        # Names that the prover makes: of a goal, and of a step after a dot or in a `use` line of Goals or Given.
        new = []
        for line in text.split("\n"):
            made = line.startswith("use ") and (".Goals" in line or ".Given" in line)
            if made:
                new.append(re.sub(NAME + "+", turn, line))
            else:
                line = re.sub(r"(?<=\.)" + NAME + "+", turn, line)
                line = re.sub(r"\b(?:returns|loop|invariant|decreases|then|else)-" + NAME + "+(?:\\+" + NAME + "+)*", turn, line)
                new.append(line)
        new = "\n".join(new)
        if new != text:
            with open(path, "w", encoding="utf-8") as f:
                f.write(new)


if __name__ == "__main__":
    main()
