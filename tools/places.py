"""Counts the places of docs/DESIGN-PASS.md in the sources of crates/, at a commit or in the work tree:

    python3 tools/places.py            the counts of each point, in the work tree
    python3 tools/places.py COMMIT     the same at a commit
    python3 tools/places.py -l POINT   each place of a point, as crate/file: text (also with COMMIT)
"""

import collections
import io
import re
import subprocess
import sys
import tarfile

FN = re.compile(r"^ *(?:pub(?:\(crate\))? )?(?:unsafe )?(?:extern \"C\" )?fn (\w+)", re.M)
WORD = re.compile(r"[A-Za-z_]\w*|\d[\d_]*|b?\"(?:[^\"\\]|\\.)*\"|\S")
KEPT = set("let mut if else while for in loop match return break continue as true false self Self usize u8 u16 u32 u64 i32 i64 bool Some None Ok Err".split())


def sources(commit):
    """Each file of src/ and each proof file, with its text."""
    if commit:
        data = subprocess.run(["git", "archive", commit, "crates"], stdout=subprocess.PIPE, check=True).stdout
        with tarfile.open(fileobj=io.BytesIO(data)) as tar:
            names = [m.name for m in tar if m.isfile()]
            texts = {n: tar.extractfile(n).read().decode() for n in names if n.endswith((".rt", ".antt"))}
    else:
        names = subprocess.run(["git", "ls-files", "-co", "--exclude-standard", "crates"], stdout=subprocess.PIPE, check=True, text=True).stdout.split("\n")
        texts = {}
        for n in names:
            if n.endswith((".rt", ".antt")):
                try:
                    with open(n, encoding="utf-8") as it:
                        texts[n] = it.read()
                except FileNotFoundError:
                    pass
    return texts


def functions(text):
    """Name, head with its clauses, and body of each function."""
    for m in FN.finditer(text):
        start = text.find("\n", m.start() + 1)
        open_at = re.compile(r"^ *\{|\{$", re.M)
        depth, i, body = 0, m.end(), None
        # the body's brace is the first one that ends a line or stands alone, outside a clause
        for b in open_at.finditer(text, m.end()):
            line = text[text.rfind("\n", 0, b.end() - 1) + 1 : b.end()]
            if re.match(r" *(requires|ensures)", line):
                continue
            body = b.end() - 1
            break
        if body is None:
            continue
        i = body
        while i < len(text):
            c = text[i]
            if c == '"':
                i += 1
                while text[i] != '"':
                    i += 2 if text[i] == "\\" else 1
            elif c == "'" and text[i + 2 : i + 3] == "'":
                i += 2
            elif c == "{":
                depth += 1
            elif c == "}":
                depth -= 1
                if depth == 0:
                    break
            i += 1
        yield m.group(1), text[m.start() : body], text[body + 1 : i]


def shape(body):
    """A body with its names and numbers left out, so that functions that differ only in these are alike."""
    seen, out = {}, []
    for w in WORD.findall(re.sub(r"//[^\n]*", "", body)):
        if re.match(r"[A-Za-z_]\w*$", w) and w not in KEPT:
            w = seen.setdefault(w, f"v{len(seen)}")
        elif re.match(r"\d", w):
            w = "0"
        elif w.startswith(('"', 'b"')):
            w = "text"
        elif w in ("u8", "u16", "u32", "u64", "usize", "i32", "i64"):
            w = "int"
        out.append(w)
    return " ".join(out)


def lines(texts, pattern):
    rule = re.compile(pattern)
    return [f"{n}: {l.strip()}" for n, t in texts.items() for l in t.split("\n") if rule.search(l)]


def places(texts):
    src = {n: t for n, t in texts.items() if "/src/" in n and n.endswith(".rt")}
    proofs = {n: t for n, t in texts.items() if "/proofs/" in n}
    fns = [(n, *f) for n, t in src.items() for f in functions(t)]
    found = collections.OrderedDict()
    found["1a numbers for kinds, statuses and refusals (constants)"] = lines(src, r"^ *(pub )?const [A-Z_0-9]+: (u8|u32|i32) = \d+;")
    found["1b results and fields that are such numbers"] = lines(src, r"^ *(pub )?(status|state|wrong|kind|cause|fd|command|option|thing|line|number): (u8|u32|i32)\b,?|-> i32\b|\bfd: i32|: i32\)")
    found["1c flags with a value beside them (fields)"] = lines(src, r"^ *(pub )?(ok|found|known|given|going|open|failed|ended|missing|right|begun|whole|counted): bool,")
    groups = collections.defaultdict(list)
    for n, name, head, body in fns:
        if body.count("\n") >= 3:
            groups[shape(body)].append(f"{n}: {name}")
    found["2 functions alike but for names, types and constants (beyond the first of each)"] = [" ~ ".join([g[0], x]) for g in groups.values() for x in g[1:]]
    found["3 loops that count by hand (while)"] = lines(src, r"^ *while ")
    found["4a conversions by hand"] = [f"{n}: {f}" for n, f, h, b in fns if re.match(r"\s*\w+(\.0)? as \w+\s*$", b)]
    found["4b least, most and sums that wrap by hand"] = [f"{n}: {f}" for n, f, h, b in fns if re.match(r"\s*if (\w+) <=? (\w+) \{\s*return \w+;\s*\}\s*\w+\s*$", b)] + lines(src, r"std::num::wrapping_")
    copied = re.compile(r"(\w+): (\w+)\.\1,")
    found["4c copies field by field (three fields or more)"] = [f"{n}: {f}" for n, f, h, b in fns if max(collections.Counter(m.group(2) for m in copied.finditer(b)).values(), default=0) >= 3]
    clauses = collections.defaultdict(list)
    params = collections.defaultdict(list)
    for n, name, head, body in fns:
        crate = n.split("/")[1]
        for c in re.findall(r"requires (?:\w+ )?\{ (.*) \}", head):
            clauses[crate, c].append(name)
        m = re.search(r"\((.*?)\)\s*(?:->|requires|ensures|$)", head, re.S)
        ps = [re.sub(r"\s+", " ", p).strip() for p in re.split(r",\s*(?![^\[(<]*[\])>])", m.group(1) if m else "")]
        ps = [p for p in ps if ":" in p and not p.startswith("host")]
        for i in range(len(ps) - 2):
            params[crate, ", ".join(ps[i : i + 3])].append(name)
    found["5a facts asked for by three functions or more of a crate"] = [f"{c}: {t} ({len(v)})" for (c, t), v in clauses.items() if len(v) >= 3]
    found["5b three parameters that travel together through three functions or more"] = [f"{c}: {t} ({len(v)})" for (c, t), v in params.items() if len(v) >= 3]
    found["6a text put at a place of a lent buffer (calls)"] = lines(src, r"text::(put|put_decimal|fill)\(|options::put_program\(|put_label\(")
    found["6b functions that answer how far a lent buffer is filled"] = lines(src, r"ensures .*IsPrefixLen")
    found["6c tables of texts looked up by a number"] = lines(src, r"text::entry\(")
    found["7 chains of tests of which step to run"] = [f"{n}: {f}" for n, f, h, b in fns if len(re.findall(r"if \w+ == (?:\w+::)*[A-Z_]{2,} \{\s*return", b)) >= 2]
    found["8a proofs that walk the code by hand (Proof.antt)"] = [n for n in proofs if n.endswith("/Proof.antt")]
    found["8b answers that only search"] = lines(proofs, r"^\w[\w-]* c( κs)? = search rules$")
    return found


def main():
    words = sys.argv[1:]
    point = None
    if words[:1] == ["-l"]:
        point, words = words[1], words[2:]
    found = places(sources(words[0] if words else None))
    for name, those in found.items():
        if point is None:
            print(f"{len(those):6} {name}")
        elif name.split()[0].startswith(point):
            for it in those:
                print(it.removeprefix("crates/"))


main()
