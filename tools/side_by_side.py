#!/usr/bin/env python3
"""Lays the public contracts, types and definitions of two commits side by side, crate by crate, where they differ.

usage: python3 tools/side_by_side.py OLD [NEW]     NEW is the working tree where it is not given

By text alone, comments and spaces aside: public functions and methods of src/ with their clauses, public types with their ghost items, and what
stands in specs/. A name that is on one side only is shown on that side. Of a theorem only its statement counts.
"""
import difflib
import os
import re
import subprocess
import sys
import tempfile


def tree(commit):
    if commit is None:
        return "."
    d = tempfile.mkdtemp(prefix="side-")
    a = subprocess.Popen(["git", "archive", commit, "crates"], stdout=subprocess.PIPE)
    subprocess.run(["tar", "-x", "-C", d], stdin=a.stdout, check=True)
    return d


def plain(text):
    return re.sub(r"^\s*(//|--\s)[^\n]*\n", "", text, flags=re.M)


def code_items(text):
    """Public functions with what they stand in, and public types and traits."""
    lines = plain(text).split("\n")
    items, where, i = [], [], 0
    while i < len(lines):
        line = lines[i]
        depth = len(line) - len(line.lstrip())
        bare = line.strip()
        while where and depth <= where[-1][0] and bare and not bare.startswith("}"):
            where.pop()
        head = re.match(r"(pub )?(unsafe )?(impl\b|trait\b|mod\b)", bare)
        if head and bare.endswith("{"):
            name = re.sub(r"\s*\{$", "", re.sub(r"^pub ", "", bare))
            where.append((depth, name))
            if not bare.startswith("impl") and not bare.startswith("pub impl"):
                pass
            i += 1
            continue
        function = re.match(r"(pub )?(const )?fn (\w+)", bare)
        kind = re.match(r"(?:pub )(struct|enum|const|static) (\w+)", bare)
        inside = " ".join(n for _, n in where)
        if function and (function[1] or " for " in inside or inside.startswith("trait")):
            j = i
            chunk = []
            while j < len(lines):
                chunk.append(lines[j].strip())
                if lines[j].rstrip().endswith("{") and lines[j].strip() in ("{",) or (j == i and bare.endswith("{") and not bare.endswith("ensures {")):
                    break
                if lines[j].rstrip().endswith(";"):
                    break
                if j > i and re.match(r"^\s*\{$", lines[j]):
                    break
                j += 1
            value = " ".join(c for c in chunk if c != "{").rstrip("{").strip()
            items.append(((inside + " :: " if inside else "") + "fn " + function[3], value))
            i = j + 1
            continue
        if kind:
            j, chunk = i, []
            while j < len(lines):
                chunk.append(lines[j].strip())
                if lines[j].rstrip().endswith(";") and j == i or lines[j].rstrip() == " " * depth + "}":
                    break
                if j == i and bare.endswith("}"):
                    break
                j += 1
            above = lines[i - 1].strip() if i and lines[i - 1].strip().startswith("#[derive") else ""
            value = (above + " " if above else "") + " ".join(chunk)
            items.append(((inside + " :: " if inside else "") + kind[1] + " " + kind[2], value))
            i = j + 1
            continue
        ghost = re.match(r"(ghost\b.*)", bare)
        if ghost and where:
            items.append((inside + " :: " + bare.split(":")[0], bare))
        i += 1
    return items


DATA = {"ℕ", "Bool", "List", "Option", "Result", "Type", "Shape", "Sort", "Dag", "Term", "Node", "Decls", "Declarations", "Unit", "Vector", "ℤ"}


def statement_only(text):
    """A theorem's statement without its proof; a definition whole."""
    words = text.split()
    if words[0] == "pub":
        words = words[1:]
    if len(words) < 2:
        return text
    if words[0] in ("record", "data", "abbrev", "unfoldable", "opaque") or words[1] in ("record", "data", "abbrev"):
        return text
    name = words[0]
    cut = re.search(r" %s [^:]*?=" % re.escape(name), text)
    kind = text[: cut.start()] if cut else text
    last = re.split(r"→", kind.split(" : ", 1)[-1])[-1].strip()
    head = last.split()[0].strip("()") if last else ""
    if head in DATA and "≡" not in last and "≤" not in last and "<" not in last and "×" not in last:
        return text
    return kind


def spec_items(text, margin=0, before=""):
    """Each declaration at the margin, up to the next of another name; those of an unnamed module stand after its parameters."""
    items, name, chunk = [], None, []

    def close():
        if not name:
            return
        if name == "module" and any(line.endswith("where") for line in chunk):
            head = next(i for i, line in enumerate(chunk) if line.endswith("where"))
            params = " ".join(" ".join(chunk[: head + 1]).split())
            params = re.sub(r"^(pub )?module _ ?", "", params)[: -len("where")].strip()
            for n, v in spec_items("\n".join(chunk[head + 1 :]), margin + 2, (before + " " + params).strip()):
                items.append((n, v))
            return
        text = statement_only(" ".join(" ".join(chunk).split()))
        items.append((name, (f"[{before}] " if before else "") + text))

    for line in plain(text).split("\n"):
        if line.strip() and len(line) - len(line.lstrip()) == margin:
            words = [w for w in line.split() if w not in ("pub", "unfoldable", "opaque")]
            first = words[0]
            if first == "unfolding":
                continue
            if first in ("use", "mod", "let") or re.match(r"[)}\]]", first):
                close()
                name, chunk = None, []
                continue
            label = words[1] if first in ("record", "data", "abbrev") and len(words) > 1 else first
            if name == label and label != "module":
                chunk.append(line)
                continue
            close()
            name, chunk = label, [line]
        elif name and line.strip():
            chunk.append(line)
    close()
    return items


def gather(root):
    found = {}
    top = os.path.join(root, "crates")
    for crate in sorted(os.listdir(top)):
        for part, suffix, items in (("src", ".rt", code_items), ("specs", ".antt", spec_items)):
            folder = os.path.join(top, crate, part)
            for at, dirs, files in os.walk(folder):
                for f in sorted(files):
                    if not f.endswith(suffix):
                        continue
                    with open(os.path.join(at, f), encoding="utf-8") as h:
                        for n, v in items(h.read()):
                            found.setdefault((crate, part), {}).setdefault(n, []).append(v)
    return found


def main(argv):
    if not argv:
        print(__doc__)
        return 2
    old, new = gather(tree(argv[0])), gather(tree(argv[1] if len(argv) > 1 else None))
    crates = sorted({c for c, _ in list(old) + list(new)})
    for crate in crates:
        out = []
        for part in ("src", "specs"):
            a, b = old.get((crate, part), {}), new.get((crate, part), {})
            gone, come = [n for n in a if n not in b], [n for n in b if n not in a]
            changed = [n for n in a if n in b and a[n] != b[n]]
            for n in changed:
                left, right = [v for v in a[n] if v not in b[n]], [v for v in b[n] if v not in a[n]]
                if left or right:
                    out.append((n, left, right))
            for n in gone:
                out.append((n, a[n], []))
            for n in come:
                out.append((n, [], b[n]))
        if out:
            print(f"\n### {crate}\n\n```text")
            for n, left, right in out:
                for v in left:
                    print("- " + v)
                for v in right:
                    print("+ " + v)
            print("```")
    return 0


if __name__ == "__main__":
    raise SystemExit(main(sys.argv[1:]))
