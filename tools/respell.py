#!/usr/bin/env python3
"""Respells the project's own definitions and lemmas as today's library spells its own. Run once, at the top, after the kit's port.py.

A word in camel case becomes snake case (`nodeOf` is `node_of`), in definitions, lemmas, fields and constructors. Where an old spelling of
`get_or` was left in a name, it is put right. A dash in the name of a definition, a field or a constructor becomes `_`; a lemma keeps its
dashes, which part the names that it speaks of. Types and modules keep their capitals. Functions of src/, strings and comments outside
backquotes stay as they are. Prints what falls together, and then changes nothing.
"""
import collections, os, re, sys

ID = r"[^\s(){}\[\],;.:«»\"`]+"
# Names that would fall together with another one.
OWN = {
    "◌orElse◌": "◌or_else◌",
    "orElse": "or_else",
    "ext-wf": "ext_wf_of",
    "nextScript": "following_script",
    "tooMany": "too_many_given",
    "indexWidth": "index_width_of",
    "valueWidth": "value_width_of",
    "operandCases": "operand_case_list",
    "nodeIn": "node_within",
    "wordFirst": "first_of_word",
    "butLast": "all_but_last",
    "arrayTail": "array_tail_of",
    "headAt": "head_found_at",
    "layoutBytes": "bytes_of_layout",
    "readName": "name_read",
    "nodeWidth": "node_width_of",
    "walkStep": "step_of_walk",
    "byNumber": "counted_by_number",
    "startsFrom": "starts_counted_from",
}
TOKEN = re.compile(r"--[^\n]*|\"(?:[^\"\\\n]|\\.)*\"|%s" % ID)


def files():
    for d, ds, fs in os.walk("crates"):
        ds[:] = sorted(x for x in ds if x not in ("out", "data"))
        for f in sorted(fs):
            if f.endswith((".antt", ".rt")):
                yield os.path.join(d, f)


def defined(texts):
    kinds = collections.defaultdict(set)
    for p, t in texts.items():
        if not p.endswith(".antt") or p.endswith("Proof.antt"):
            continue
        inside = None
        for l in t.split("\n"):
            m = re.match(r"( *)((?:(?:abbrev|unfoldable|pub) )*)(record|data) (%s)" % ID, l)
            if m:
                inside = (len(m[1]), m[3])
                kinds[m[4]].add("type")
                continue
            m = re.match(r"( *)((?:(?:abbrev|unfoldable|pub) )*)(%s) :(?= |$)" % ID, l)
            if not m or m[3].startswith("--"):
                if l and not l.startswith(" "):
                    inside = None
                continue
            if inside and len(m[1]) > inside[0]:
                kinds[m[3]].add("field" if inside[1] == "record" else "constructor")
                continue
            inside = None
            kinds[m[3]].add("definition" if "abbrev" in m[2] or "unfoldable" in m[2] else "lemma")
    return kinds


def snake(part):
    if not part[:1].islower():
        return part
    part = re.sub(r"(?<=[a-z0-9′'₀-₉])([A-Z])", lambda m: "_" + m[1].lower(), part.replace("getD", "get_or"))
    return re.sub(r"(?<=_[a-z])([A-Z])", lambda m: "_" + m[1].lower(), part)


def new_name(name, kinds):
    if any(c in name for c in "◌→↔∈⊎×"):
        parts = [name]
    else:
        parts = name.split("-")
    new = "-".join(snake(p) for p in parts)
    m = re.match(r"get_d_(\w+)$", new)
    if m:
        new = "get_or-" + m[1]
    if "-" in new and kinds & {"definition", "field", "constructor"} and re.fullmatch(r"[a-z][\w'-]*", new) and "lemma" not in kinds:
        new = new.replace("-", "_")
    return new


def clauses(text):
    """the parts of a .rt file that antt reads: from a `ghost use`, `requires`, `ensures` or `ghost` on to its end"""
    spans = []
    for m in re.finditer(r"(?m)^\s*ghost use [^;]*;|\b(?:requires|ensures|ghost)\b[^{};\n]*\{", text):
        if m[0].endswith(";"):
            spans.append(m.span())
            continue
        depth, i = 1, m.end()
        while depth and i < len(text):
            depth += (text[i] == "{") - (text[i] == "}")
            i += 1
        spans.append((m.end(), i))
    return spans


def main():
    texts = {p: open(p, encoding="utf-8").read() for p in files()}
    kinds = defined(texts)
    table = {}
    for n, k in kinds.items():
        if k == {"type"}:
            continue
        new = OWN.get(n) or new_name(n, k)
        if new != n:
            table[n] = new
    table.update((n, OWN[n]) for n in ("orElse", "◌orElse◌"))
    bad = 0
    for p, t in sorted(texts.items()):
        words = set(TOKEN.findall(t))
        by_new = collections.defaultdict(set)
        for w in words:
            if w in table:
                by_new[table[w]].add(w)
        for new, olds in sorted(by_new.items()):
            if new in words and p.endswith(".antt") and not p.endswith("Proof.antt") or len(olds) > 1:
                print("together:", p, sorted(olds), new)
                bad += 1
    if "--check" in sys.argv:
        print(len(table), "names")
        for n in sorted(table):
            print(n, table[n])
        return 0
    if bad:
        print(bad, "fall together")
        return 1

    def word(m):
        w = m[0]
        if w.startswith("--"):
            return re.sub(r"`[^`\n]*`", lambda q: TOKEN.sub(lambda k: table.get(k[0], k[0]), q[0]), w)
        return table.get(w, w)

    camel = {n: new for n, new in table.items() if re.search(r"[a-z][A-Z]", n)}
    for p, t in texts.items():
        if p.endswith(".antt"):
            new = TOKEN.sub(word, t)
        else:
            out, at = [], 0
            for a, b in clauses(t):
                if a < at:
                    continue
                out.append(t[at:a])
                out.append(TOKEN.sub(word, t[a:b]))
                at = b
            out.append(t[at:])
            new = "".join(out)
            new = re.sub(r"`[^`\n]*`", lambda q: TOKEN.sub(lambda k: table.get(k[0], k[0]), q[0]) if re.fullmatch(r"`%s`" % ID, q[0]) and q[0][1:-1] in table else q[0], new)
            new = re.sub(r"(?<![\w.])[a-z]\w*[a-z][A-Z]\w*", lambda k: camel.get(k[0], k[0]), new)
        if new != t:
            with open(p, "w", encoding="utf-8") as f:
                f.write(new)
    return 0


if __name__ == "__main__":
    sys.exit(main())
