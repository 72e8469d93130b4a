#!/usr/bin/env python3
"""Brings the texts of the wrong programs (crates/NAME/must-fail, crates/NAME/wrong) to the spelling that the sources have today.

The `old:` text of an edit stood in the file of the commit BEFORE. It is respelled by the rules below, and so is the `new:` text. The result is
taken where the respelled `old:` text stands in today's file exactly once, in the line that stands for the one of BEFORE; else the edit is
named, with both lines, and is mended by hand. The rules:

- `crate·specs.specs.M` is `crate.specs.M`, and `·` is `.`; `_op_` in an import is `◌op◌`; `′` is `'`; `«name»` is `name`
- a promise `λ r. ⌜ A ⌝` is A, with `result` for r; `now (x .entry)` is `x.old`, `now (x .exit)` is `x.new`, and `x.now` where x is shared
- a projection has no blank, and binds as a whole: `(c .f)` is `c.f`, and `f x .g` is `(f x).g`
- a name with a capital inside is in snake case, as tools/respell.py has it, and a dash inside a step's name is `_`
- `getD xs i d` is `get_or xs i d`

A line `refused:` becomes `# refused:`, which is a comment to the prover's own try of an edit. Its need has the name that NEEDS gives, a folder
with a file names.json for each crate, as `rattle check --generated --old-names` writes it: pairs of a need's name before and now.

Usage: edits.py BEFORE NEEDS   at the top of the repository, once. Ends with status 1 where edits are left for the hand.
"""

import difflib
import glob
import json
import os
import re
import subprocess
import sys

NAME = r"[A-Za-z\u0370-\u03ff\u2080-\u2089\u2115\u211d][\w'\u2080-\u2089]*"
TOKEN = re.compile(rf"\s+|«[^»]*»|{NAME}(?:[.-]{NAME})*|\.{NAME}|\d+|\.\d+|[()\[\]{{}};,]|[^\sA-Za-z()\[\]{{}};,]+")
CLOSES = {"(": ")", "[": "]", "{": "}"}


def snake(name):
    name = re.sub(r"(?<=[a-z])A(?=[A-Z])", "_a", name.replace("getD", "get_or"))
    return re.sub(r"(?<=[a-z0-9])([A-Z])", lambda m: "_" + m.group(1).lower(), name)


def tree(tokens, end=None):
    """Tokens as a tree: a bracket with what it holds is one item."""
    items = []
    while tokens:
        token = tokens.pop(0)
        if token == end:
            return items, True
        if token in CLOSES:
            inner, closed = tree(tokens, CLOSES[token])
            items.append((token, inner, closed))
        else:
            items.append(token)
    return items, end is None


def is_atom(item):
    if isinstance(item, tuple):
        return True
    return bool(re.match(rf"{NAME}|«|\d", item)) and item not in ("record", "let", "in", "λ", "use", "pub", "elim", "unfolding")


def parts(items):
    """The parts of a tree's text, each with whether it is one atom. A projection is written after what it is taken of."""
    out = []
    for item in items:
        if isinstance(item, tuple):
            mark, inner, closed = item
            within = parts(inner)
            text = "".join(part for part, _ in within)
            lone = mark == "(" and closed and len(within) == 1 and re.search(rf"[\w'»)]\.(?:{NAME}|\d+)$", text)
            out.append((text if lone else mark + text + (CLOSES[mark] if closed else ""), True))
        elif re.fullmatch(rf"\.(?:{NAME}|«[^»]*»|\d+)", item) and out and out[-1][0].isspace():
            out.pop()
            start = len(out)
            while start and (out[start - 1][1] or out[start - 1][0].isspace()):
                start -= 1
            while start < len(out) and out[start][0].isspace():
                start += 1
            spine = "".join(text for text, _ in out[start:])
            atoms = [text for text, _ in out[start:] if not text.isspace()]
            whole = spine if len(atoms) == 1 else f"({spine})"
            out[start:] = [(whole + item, True)]
        else:
            out.append((item, is_atom(item)))
    return out


def projected(text):
    """Each projection `x .f` as `x.f`."""
    items, _ = tree(TOKEN.findall(text))
    return "".join(part for part, _ in parts(items))


def promised(text, line, today):
    """The promise `λ r. ⌜ A ⌝`, or a part of one, as A. It stands in a line of the commit, which is another today."""
    bound = re.search(r"λ (\w+)\. ⌜ ", line)
    if bound:
        text = text.replace(bound.group(0), "")
        text = re.sub(rf"(?<![\w'.]){bound.group(1)}(?![\w'])", "result", text)
    text = text.replace(" ⌝", "").replace("⌜ ", "")

    def state(named):
        before = "now" if f"{named.group(1)}.now" in today else "old"
        return f"({named.group(1)} .{before if named.group(2) == 'entry' else 'new'})"

    return re.sub(r"now \((\w+) \.(entry|exit)\)", state, text)


def respelled(text, file, line="", today=""):
    """A text of the file by the rules. It stands in a line of the commit, which is another today."""
    text = text.replace("·specs.specs.", ".specs.").replace("·", ".").replace("′", "'")
    text = re.sub(r"«(\w+)»", r"\1", text)
    if file.startswith("src/"):
        if "⌜" not in (line or text):
            return text
        text = promised(text, line or text, today)
    if re.match(r"(ghost )?use ", text):
        text = re.sub(r"(?<=[{ ])_(\S+?)_(?=[,}])", r"◌\1◌", text)
    else:
        text = projected(text)
    return re.sub(NAME, lambda m: snake(m.group(0)) if re.match(r"[a-z]", m.group(0)) else m.group(0), text)


def at_commit(commit, path):
    ran = subprocess.run(["git", "show", f"{commit}:{path}"], capture_output=True, text=True)
    return ran.stdout if ran.returncode == 0 else None


ALIGNED = {}


def counterpart(commit, path, number):
    """A line of the commit's file, and the one that stands for it today, or nothing."""
    if path not in ALIGNED:
        then = (at_commit(commit, path) or "").splitlines()
        now = open(path, encoding="utf-8").read().splitlines() if os.path.exists(path) else []
        inside = path.split("/", 2)[2]
        pairs = {}
        for what, a, b, c, d in difflib.SequenceMatcher(None, [respelled(line, inside) for line in then], now, autojunk=False).get_opcodes():
            if what == "equal" or b - a == d - c:
                pairs.update(zip(range(a, b), range(c, d)))
        ALIGNED[path] = then, now, pairs
    then, now, pairs = ALIGNED[path]
    return then[number], now[pairs[number]] if number in pairs else None


def carried(commit, crate, file, old, new):
    """The pair respelled, or what the line is today, and why it is left."""
    path = f"crates/{crate}/{file}"
    before = at_commit(commit, path)
    if before is None or not os.path.exists(path):
        return None, f"{file} is no longer there"
    if before.count(old) != 1:
        return None, f"the text stands in the file of the commit {before.count(old)} times"
    number = before[: before.index(old)].count("\n")
    line, today = counterpart(commit, path, number)
    turned = respelled(old, file, line, today or "")
    if open(path, encoding="utf-8").read().count(turned) != 1 or today is None or turned not in today:
        return None, f"today's line: {today}"
    return (turned, respelled(new, file, line, today)), None


def need_names(folder):
    """For each function, the names of its needs: before and now."""
    names = {}
    for path in glob.glob(f"{folder}/names-*/names.json"):
        with open(path, encoding="utf-8") as it:
            modules = json.load(it)
        for module, told in modules.items():
            of = re.match(r"Rattle-(\w+)-proofs\.(.*)\.Lts$", module)
            if of and "needs" in told:
                names["::".join([of.group(1), *of.group(2).split(".")])] = {a.replace("_", "-"): b for a, b in told["needs"]}
    return names


def need_today(need, names):
    """The name of a function's need today. A loop's needs were also named by what proved them, as loop-holds before it and loop-again in it."""
    need = need.replace("_", "-")
    of_loop = re.sub("-again$", "-preserved", re.sub("-holds$", "-init", need))
    return names.get(need) or names.get(of_loop) or need


def main():
    commit, folder = sys.argv[1:]
    needs = need_names(folder)
    left = 0
    for path in sorted(glob.glob("crates/*/must-fail/*.edit") + glob.glob("crates/*/wrong/*.edit")):
        crate = path.split("/")[1]
        lines, file, old = [], "", ""
        for line in (at_commit(commit, path) or "").splitlines():
            word, _, rest = line.partition(" ")
            if word == "refused:":
                function, _, need = rest.partition(" ")
                need = snake(need) if function == "law" else need_today(need, needs.get(function, {}))
                lines.append(f"# refused: {function} {need}")
            elif word == "file:":
                file = rest
                lines.append(line)
            elif word == "old:":
                old = rest
            elif word == "new:":
                pair, why = carried(commit, crate, file, old, rest)
                if why:
                    left += 1
                    print(f"{path}: {why}\n  old: {old}\n  new: {rest}\n  by the rules: {respelled(old, file)}")
                    pair = respelled(old, file), respelled(rest, file)
                lines += [f"old: {pair[0]}", f"new: {pair[1]}"]
            else:
                lines.append(line)
        with open(path, "w", encoding="utf-8") as it:
            it.write("\n".join(lines) + "\n")
    print(f"{left} pairs are left for the hand")
    return left != 0


if __name__ == "__main__":
    sys.exit(main())
