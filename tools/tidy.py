#!/usr/bin/env python3
"""Looks over the text of proofs, specifications, code and edits. Run anywhere below the repository.

    tools/tidy.py           says what is needless or out of place; exit 1 if anything is
    tools/tidy.py --write   takes out what is needless: imported names that a file does not mention, `use .. as` that nothing cites, and
                            needs answered by a search alone, which go into the arguments of `tie.spec`

An edit is out of place where a text that it replaces does not stand in its file exactly once. `rt fmt` and `rt check` come after it."""
import re
import sys
from pathlib import Path

ROOT = Path(__file__).resolve().parent.parent
NAME = r"[^\s(){}\[\],;.:=⌜⌝λ`@]"


def stands(word, text):
    return re.search(rf"(?<!{NAME}){re.escape(word)}(?!{NAME})", text)


def mentioned(name, text):
    """Whether the text has the name; of an operator `◌x◌`, by itself or between its arguments."""
    parts = [p for p in name.split("◌") if p] if "◌" in name else [name]
    return stands(name, text) or all(stands(p, text) for p in parts)


def imports(text):
    """The text without imported names that it does not mention."""
    lines = text.split("\n")
    body = "\n".join(line for line in lines if not re.match(r"(ghost )?use |\s*(--|//)", line))
    out = []
    for line in lines:
        m = re.match(r"((?:ghost )?use \S+?\.)\{(.*)\}(;?)$", line)
        if m:
            names = [x.strip() for x in m[2].split(",")]
            kept = [x for x in names if mentioned(x.split(" as ")[-1], body)]
            if not kept:
                continue
            if kept != names:
                line = f"{m[1]}{{{', '.join(kept)}}}{m[3]}"
        out.append(line)
    return "\n".join(out)


def aliases(text):
    """The text without `use .. as x` where nothing cites `x.`"""
    for m in list(re.finditer(r"^use \S+ as ([\w-]+)\n", text, re.M)):
        if not re.search(rf"(?<![\w·.-]){re.escape(m[1])}\.", text.replace(m[0], "")):
            text = text.replace(m[0], "")
    return text


def searches(text):
    """The text with each need that `search needs` or `omega arith` alone answers among the arguments of `tie.spec`."""
    if "tie.spec" not in text:
        return text
    need = r"^([\w-]+) : tie\.Need-\S+(?: Inv-loop μ-loop)?\n\1 (c(?: κs)?) = (search needs|omega arith)\n\n?"
    for m in list(re.finditer(need, text, re.M)):
        word = rf"(?<![\w.-]){re.escape(m[1])}(?![\w-])"
        if len(re.findall(word, text)) <= 3:
            text = text.replace(m[0], "", 1)
            text = re.sub(rf"(tie\.spec(?:.|\n)*?){word}", lambda k: f"{k[1]}(λ {m[2]}. {m[3]})", text, count=1)
    return text


def tidied(path):
    text = path.read_text()
    if path.suffix == ".antt" and "proofs" in path.parts:
        text = aliases(searches(text))
    return imports(text)


def misplaced(edit):
    """The texts that the edit replaces and that do not stand in their files exactly once."""
    files, steps = {}, []
    for line in edit.read_text().split("\n"):
        if line.startswith("file: "):
            name = line[6:].strip()
        elif line.startswith("old: "):
            if not steps or steps[-1][2]:
                steps.append((name, [], []))
            steps[-1][1].append(line[5:])
        elif line.startswith("new:"):
            steps[-1][2].append(line[5:])
    for name, old, new in steps:
        text = files.get(name) or (edit.parent.parent / name).read_text()
        if text.count("\n".join(old)) != 1:
            yield f"{edit.relative_to(ROOT)}: in {name} not exactly once: {old[0]}"
        files[name] = text.replace("\n".join(old), "\n".join(new), 1)


def main():
    write = sys.argv[1:] == ["--write"]
    said = []
    for path in sorted((ROOT / "crates").rglob("*")):
        if path.suffix in (".rt", ".antt"):
            text = tidied(path)
            if text != path.read_text():
                said.append(f"{path.relative_to(ROOT)}: {'made shorter' if write else 'can be shorter'}")
                if write:
                    path.write_text(text)
        elif path.suffix == ".edit":
            said += misplaced(path)
    print(*said, sep="\n", end="\n" * bool(said))
    return 0 if write else bool(said)


if __name__ == "__main__":
    sys.exit(main())
