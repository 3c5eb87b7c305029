#!/usr/bin/env python3
"""respell.py [ROOT]    brings the project's own definitions and lemmas to snake case, once, after the kit's port.py

Names of specs/ and of the lemma files of proofs/ that are in camel case (readFront) or have a dash (read-accepts) become read_front and
read_accepts, and so do names that a file gives to what it imports (leafNode). Types and modules keep their capitals. A lemma that would get its function's name gets _lem behind it. Functions of
src/, strings, inputs and outputs keep their names. Turned: every .antt, the clauses, ghost imports and comments of every .rt, the
must-fail edits, and what stands between backticks in the pages. A name behind a dot is turned where it is a field of ours, and left
where it is a step of a proof.
"""
import collections
import os
import re
import sys

WORD = r"A-Za-z0-9_'\u2080-\u2089\u03bc-"
MODS = ("unfoldable", "abbrev", "axiom", "pub", "record", "data")
FIELDS = {"leafOut", "leafIn", "bitsOut", "bitsIn"}     # record fields, cited behind a dot


def files(root, *endings):
    for folder, dirs, names in os.walk(root):
        dirs[:] = sorted(d for d in dirs if d not in ("out", "target", ".git", "build"))
        for name in sorted(names):
            if name.endswith(endings):
                yield os.path.join(folder, name)


def text(path):
    with open(path, encoding="utf-8") as f:
        return f.read()


def declared(root):
    """The names that files of specs/ and lemma files declare, at the head of a line with ' : '."""
    found = set()
    for path in files(os.path.join(root, "crates"), ".antt"):
        if os.path.basename(path) in ("Proof.antt", "Answers.antt", "Invariants.antt") and "/proofs/" in path.replace(os.sep, "/").rsplit("/", 1)[0]:
            continue
        for line in text(path).split("\n"):
            line = line.strip()
            if line.startswith("--") or " :" not in line:
                continue
            words = re.split(r"[({]", line.split(" :")[0])[0].split()
            while words and words[0] in MODS:
                words.pop(0)
            found.update(w for w in words if re.fullmatch(r"[A-Za-z][A-Za-z0-9_'-]*", w))
    return found


def foreign(root):
    """Names that files take from libraries of the kit: those keep their spelling."""
    own = "|".join(sorted(os.listdir(os.path.join(root, "crates"))))
    found = set()
    for path in files(os.path.join(root, "crates"), ".antt", ".rt"):
        for m in re.finditer(r"(?m)^(?:ghost )?(?:pub )?use ([^\s{]+)\.\{([^}]*)\}", text(path)):
            if not re.match(rf"Rattle\.(?:{own})\.", m.group(1)):
                found.update(w.split(" as ")[0].strip() for w in m.group(2).split(","))
    return found


def aliases(root):
    """Names in camel case that a file gives to what it imports."""
    found = set()
    for path in files(os.path.join(root, "crates"), ".antt", ".rt"):
        found.update(re.findall(r"\bas ([a-z][a-z0-9_]*[A-Z]\w*)", text(path)))
    return found


def turned(found):
    """Old name to new."""
    old = {n for n in found if "-" in n or (not n[0].isupper() and re.search(r"[a-z0-9][A-Z]", n))}
    groups = collections.defaultdict(set)
    for n in found:
        groups[re.sub(r"([a-z0-9])([A-Z])", r"\1_\2", n.replace("-", "_")).lower() if n in old else n].add(n)
    new = {}
    for name, group in groups.items():
        camel = [n for n in group if "-" not in n and re.search(r"[a-z0-9][A-Z]", n)]
        for n in group:
            to = name if len(group) == 1 or n in camel else name + "_lem"
            if to != n:
                new[n] = to
    return new


def everywhere(found, new):
    """For pages and edits, which port.py leaves as they are: what it has turned in the crates is turned there too."""
    now = {new.get(n, n) for n in found}
    more = dict(new)

    def get(n):
        if n not in more and ("-" in n or (not n[:1].isupper() and re.search(r"[a-z0-9][A-Z]", n))):
            to = re.sub(r"([a-z0-9])([A-Z])", r"\1_\2", n.replace("-", "_")).lower()
            if to in now:
                more[n] = new.get(to, to) if "-" in n else to
        return more.get(n)

    return get


def turn(line, new, dotted):
    """One line: the whole words of new. dotted says whether a name behind a dot is turned too."""
    def word(m):
        n = m.group(0)
        to = new(n) if callable(new) else new.get(n)
        if not to or (m.start() and line[m.start() - 1] == "." and not dotted and n not in FIELDS):
            return n
        return to
    return re.sub(rf"[{WORD}]+", word, line)


def ticked(line, new):
    return re.sub(r"`[^`\n]*`", lambda m: turn(m.group(0), new, True), line)


def comment(line, new, mark):
    """A comment's dashed names are turned between backticks alone: its words have dashes too."""
    camel = {a: b for a, b in new.items() if "-" not in a and re.search(r"[a-z0-9][A-Z]", a)}
    return ticked(turn(line, camel, True), new)


def antt(t, new, walk):
    out = []
    for line in t.split("\n"):
        at = line.find("--")
        if at >= 0 and (at == 0 or line[at - 1].isspace()):
            out.append(turn(line[:at], new, not walk) + comment(line[at:], new, "--"))
        else:
            out.append(turn(line, new, not walk))
    return "\n".join(out)


def rt(t, new):
    out = []
    for line in t.split("\n"):
        s = line.strip()
        if s.startswith("//"):
            out.append(comment(line, new, "//"))
        elif re.match(r"(ghost use|requires|ensures|ghost)\b", s):
            out.append(turn(line, new, True))
        else:
            out.append(turn(line, {a: b for a, b in new.items() if "-" not in a and re.search(r"[a-z0-9][A-Z]", a)}, True))
    return "\n".join(out)


def main(argv):
    root = argv[0] if argv else "."
    taken = declared(root) - foreign(root)
    new = turned(taken)
    new.update((a, re.sub(r"([a-z0-9])([A-Z])", r"\1_\2", a).lower()) for a in aliases(root))
    also = everywhere(taken, new)
    for a, b in sorted(new.items()):
        if b in taken and b not in new:
            print(f"falls together: {a} -> {b}")
    for path in files(root, ".antt", ".rt", ".edit", ".md"):
        before = text(path)
        if path.endswith(".antt"):
            after = antt(before, new, os.path.basename(path) == "Proof.antt")
        elif path.endswith(".md"):
            after = "\n".join(ticked(l, also) for l in before.split("\n"))
        elif path.endswith(".edit"):
            after = "\n".join(turn(l, also, True) if re.match(r"(old|new):", l) else l for l in before.split("\n"))
        else:
            after = rt(before, new)
        if after != before:
            with open(path, "w", encoding="utf-8") as f:
                f.write(after)
    print(f"{len(new)} names")
    return 0


if __name__ == "__main__":
    sys.exit(main(sys.argv[1:]))
