#!/usr/bin/env python3
"""Respells the names that specs/ and proofs/ declare, as today's Rattle spells names: words in snake case, `′` is `'`.

Run once, right after the kit's port.py, at the top of the repository. A name in camel case that begins with a small letter gets underscores
(`judgeTable`: `judge_table`), and so does one with dashes (`true-and-complete`: `true_and_complete`), but for a lone dash that joins the
names of two definitions, which stays (`cut-ids`). Where two names would fall together the lemma gets `_lem`. Types, modules, functions of src/, exported names and the names that the check generates stay as they are."""
import collections
import pathlib
import re
import sys

TOKEN = re.compile(r"[^\s(){}\[\];,.«»`\"λ∷⌜⌝|]+")
DECLARED = re.compile(r"\s*(?:let )?((?:(?:abbrev|unfoldable|pub|infix\w*)\s+)*)([^\s(){}\[\];,.:λ=]+(?:\s+[^\s(){}\[\];,.:λ=]+)*)(?:\s+\{[^}]*\})?\s+:\s")
# words of the library that a dash may join to a name
LIBRARY = set("append add sub mul div mod zero suc nil cons drop take length map filter set replicate reverse and or not min max".split())
# names that the check generates, or that a walk by hand gives to its goals
GENERATED = re.compile(r"^(returns|loop|invariant|decreases|overflow|bounds|slice|nonzero|offset|tie|goal|Need|mul|add|sub|div|rem|shl|shr|cast|enum|shared|prove|if|in|in_ok|then|else)(-|$)|-(spec|requires|result|init|preserved|smaller)(-\d+)?$")


def files(root, endings):
    for folder in sorted(root.glob("crates/*")):
        for part in ("src", "specs", "proofs", "must-fail"):
            for p in sorted((folder / part).rglob("*")):
                if p.suffix in endings and p.is_file():
                    yield p


def walk(p):
    return p.name == "Proof.antt"


def declared(root):
    """The names that definitions files declare, with the folders that declare them."""
    names = collections.defaultdict(set)
    for p in files(root, (".antt",)):
        if walk(p):
            continue
        for line in p.read_text(encoding="utf8").splitlines():
            if line.lstrip().startswith(("--", "use ")):
                continue
            m = DECLARED.match(line)
            if m:
                for n in m.group(2).split():
                    names[n].add("specs" if "specs" in p.parts else "proofs")
            # constructors on one line, and names bound by `let n : T` or `where`
            for n in re.findall(r"\b(?:let|where)\s+([a-z][\w'-]*)\s+:", line):
                names[n].add("proofs")
    return names


def snake(word):
    return re.sub(r"(?<=[a-z0-9])([A-Z])", lambda m: "_" + m.group(1).lower(), word)


def respelled(name, words, where):
    if "specs" in where:
        # a definition, a field or a constructor
        return snake(name).replace("-", "_") if name[0].islower() and re.fullmatch(r"[\w'-]+", name) else name
    if name[0].isupper() or not re.search(r"[A-Z]|-|′", name) or GENERATED.search(name) or not re.match(r"[a-z]", name):
        return name
    parts = name.replace("′", "'").split("-")
    out = snake(parts[0]) if not re.search(r"^[a-z]+[A-Z]{2}", parts[0]) else parts[0]
    for before, part in zip(parts, parts[1:]):
        known = len(parts) == 2 and before in words and part in words
        small = snake(part) if part[:1].islower() else part
        out += ("-" if known or not re.match(r"[\w']", part) or part[:1].isupper() else "_") + small
    return out


def main():
    root = pathlib.Path(sys.argv[1] if len(sys.argv) > 1 else ".")
    names = declared(root)
    defined = {n for n, where in names.items() if "specs" in where and re.fullmatch(r"[a-z]\w*", n)} | LIBRARY
    functions = set()
    used = collections.Counter()
    for p in files(root, (".rt", ".antt")):
        text = p.read_text(encoding="utf8")
        used.update(TOKEN.findall(text))
        if p.suffix == ".rt":
            functions |= set(re.findall(r"\bfn (\w+)", text))
    steps = {f.replace("_", "-") for f in functions}
    to = {n: respelled(n, defined, names[n]) for n in names}
    to = {n: r for n, r in to.items() if n != r}
    # Names that fall together: a definition keeps the plain name, also beside a function or a label of that name; a lemma gets `_lem`.
    camel = {r for n, r in to.items() if re.search("[A-Z]", n)}
    for n in [n for n in names if n in camel]:
        to[n] = n + "_lem"
    for n in list(to):
        if not re.search("[A-Z]", n) and not to[n].endswith("_lem") and (to[n] in camel or used[to[n]]):
            to[n] += "_lem"
    for n, many in collections.Counter(to.values()).items():
        if many > 1 or (n.endswith("_lem") and used[n]):
            sys.exit(f"{n} would stand for {[k for k in to if to[k] == n]}")
    changed = 0
    for p in list(files(root, (".rt", ".antt", ".edit"))):
        text = p.read_text(encoding="utf8")

        def turn(m):
            word = m.group(0)
            if word not in to:
                return word
            if walk(p) and word in steps and text[m.start() - 1 : m.start()] == ".":
                return word
            return to[word]

        lines = []
        for line in text.split("\n"):
            code, comment = line, ""
            if p.suffix == ".antt" and "--" in line:
                at = re.search(r"(^|\s)--(\s|$)", line)
                if at:
                    code, comment = line[: at.start()], line[at.start() :]
            elif p.suffix == ".rt" and "//" in line:
                code, comment = line[: line.index("//")], line[line.index("//") :]
            text = code
            code = TOKEN.sub(turn, code)
            text = comment
            comment = re.sub(r"`[^`]*`", lambda q: TOKEN.sub(lambda m: to.get(m.group(0), m.group(0)), q.group(0)), comment)
            lines.append(code + comment)
        new = "\n".join(lines)
        if new != p.read_text(encoding="utf8"):
            p.write_text(new, encoding="utf8")
            changed += 1
    for n in sorted(to):
        print(f"{n} {to[n]}")
    print(f"{len(to)} names respelled in {changed} files", file=sys.stderr)


main()
