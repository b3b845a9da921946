#!/usr/bin/env python3
"""Prints what has changed since a commit of what readers cite, old (-) over new (+): public functions with their clauses, types with their invariants,
definitions, and the lemmas that the documents of that commit name. Spelling alone is no change: `none` is `None`, `accepted` is `Ok`.
usage: tools/since.py COMMIT    (by the kit's /opt/rattle/port/contracts.py)"""
import glob, io, json, os, re, subprocess, sys, tarfile, tempfile

WIDTH = 170


def spelled(text):
    for old, new in (("none", "None"), ("some", "Some"), ("accepted", "Ok"), ("refused", "Err")):
        text = re.sub(rf"(?<![\w·.]){old}(?![\w'])", new, text)
    return re.sub(r"\s+", " ", text).strip()


def closing(text, start):
    depth = 0
    for i in range(start, len(text)):
        depth += (text[i] in "({[") - (text[i] in ")}]")
        if depth == 0:
            return i + 1
    return len(text)


def functions(root):
    """(crate, name) of what `pub fn` says in lib.rt and lent.rt, the text up to its body; and of each `impl From`, with what it gives"""
    found = {}
    for path in sorted(glob.glob(root + "/crates/*/src/*.rt")):
        crate, text, owner = path.split("/")[-3], open(path).read(), ""
        for m in re.finditer(r"^impl(?:<[^>]*>)? (From<[^\n]*>) for (\w+) \{\n +(ghost from_gives[^\n]*);", text, re.M):
            found[crate, m.group(2) + "::" + m.group(1)] = [f"impl {m.group(1)} for {m.group(2)}", spelled(m.group(3))]
        if os.path.basename(path) not in ("lib.rt", "lent.rt"):
            continue
        for m in re.finditer(r"^impl(?:<[^>]*>)? ([\w<> ]+?)(?:<'?\w+>)? \{$|^( *)pub (?:extern \"C\" )?fn (\w+)", text, re.M):
            if m.group(1):
                owner = m.group(1)
                continue
            end = re.compile(r"^%s\{$|(?<=\S) \{$" % m.group(2), re.M).search(text, m.end()).start()
            head = re.sub(r"//[^\n]*", "", text[m.start():end])
            name = (owner.replace("for ", "") + "::" if m.group(2) else "") + m.group(3)
            head = spelled(head).replace("( ", "(").replace(", )", ")")
            found[crate, name] = re.split(r" (?=(?:requires|ensures) )", head)
    return found


def types(root):
    """(crate, name) of each public or private struct and enum: its fields, ghost ones among them"""
    found = {}
    for path in sorted(glob.glob(root + "/crates/*/src/*.rt")):
        crate, text = path.split("/")[-3], open(path).read()
        for m in re.finditer(r"^(?:pub(?:\(crate\))? )?(struct|enum) (\w+)[^{;]*\{", text, re.M):
            body = text[m.end():closing(text, m.end() - 1) - 1]
            lines = [spelled(re.sub(r"//.*", "", x)).rstrip(",") for x in body.split("\n")]
            if m.group(1) == "enum" and not m.group(0).startswith("pub "):
                continue
            fields = [x for x in lines if x.startswith("ghost ") or m.group(0).startswith("pub ")]
            found[crate, m.group(2)] = [m.group(1) + " " + m.group(2)] + [x for x in fields if x]
    return {k: v for k, v in found.items() if len(v) > 1}


def lemmas(root):
    """name of each declaration of proofs/*.antt that other files can cite: its crate, its file and its statement, with the parameters of the modules it stands in"""
    found = {}
    for path in sorted(glob.glob(root + "/crates/*/proofs/*.antt")):
        crate, lines, modules = path.split("/")[-3], open(path).read().split("\n"), []
        i = 0
        while i < len(lines):
            line = lines[i]
            indent = len(line) - len(line.lstrip())
            if line.strip():
                modules = [x for x in modules if x[0] < indent]
            head = re.match(r" *(?:pub )?module _ ", line)
            if head:
                j = i
                while not lines[j].rstrip().endswith("where"):
                    j += 1
                modules.append((indent, re.sub(r"--[^\n]*", "", "\n".join(lines[i:j + 1]))[head.end():]))
                i = j
            m = re.match(r"(?: *pub )?(?:abbrev |unfoldable )*([\w'-]+) : ", line)
            if m:
                j = i + 1
                while j < len(lines) and len(lines[j]) - len(lines[j].lstrip()) > indent and lines[j].strip():
                    j += 1
                said = [spelled(re.sub(r" where$", "", x.strip())) for _, x in modules] + [spelled("\n".join(lines[i:j])[line.index(m.group(1)):])]
                found.setdefault(m.group(1), []).append((crate, os.path.basename(path), said))
            i += 1
    return found


def everything(root):
    files = glob.glob(root + "/crates/*/src/*.rt") + glob.glob(root + "/crates/*/specs/*.antt")
    return "\n".join(open(path).read() for path in files)


def cited(root):
    names = set()
    for path in [root + "/README.md"] + glob.glob(root + "/docs/*.md"):
        names |= set(re.findall(r"`([A-Za-z]+_[\w']+|[a-z]{6,})`", open(path).read()))
    return names - set(os.listdir(root + "/crates"))


def wrapped(mark, text):
    """a long text in lines of at most WIDTH, which begin with the mark"""
    words, line = text.split(" "), mark
    for word in words:
        if len(line) + 1 + len(word) > WIDTH and line != mark:
            print(line)
            line = mark + "   "
        line += " " + word
    print(line)


def pairs(title, old, new):
    print(f"\n### {title}")
    for crate in sorted({key[0] for key in set(old) | set(new)}):
        lines = []
        for key in sorted(key for key in set(old) | set(new) if key[0] == crate):
            a, b = old.get(key, []), new.get(key, [])
            if a != b:
                lines.append([("-" if x not in b else " ", x) for x in a] + [("+", x) for x in b if x not in a])
        if lines:
            print(f"\n{crate}\n\n```diff")
            for i, item in enumerate(lines):
                if i:
                    print()
                for mark, text in item:
                    wrapped(mark, text)
            print("```")


def main():
    commit = sys.argv[1]
    with tempfile.TemporaryDirectory() as old:
        archive = subprocess.run(["git", "archive", commit], check=True, stdout=subprocess.PIPE).stdout
        tarfile.open(fileobj=io.BytesIO(archive)).extractall(old, filter="data")
        new = "."
        pairs("Public functions", functions(old), functions(new))
        pairs("Types, with their invariants", types(old), types(new))
        said = subprocess.run([sys.executable, "/opt/rattle/port/contracts.py", old, new, "--json"], check=True, stdout=subprocess.PIPE).stdout
        defs = json.loads(said)["definitions"]["changed"]
        one = lambda texts: [spelled(re.sub(r" -- .*$", "", " ".join(texts)))]
        kept = [d for d in defs if not d[1].startswith("open_")]
        pairs("Definitions", {(c, n): one(a) for c, n, a, b in kept}, {(c, n): one(b) for c, n, a, b in kept})
        a, b = lemmas(old), lemmas(new)
        names = cited(old) - {x[-1] for x in re.findall(r"(fn|unfoldable pub|abbrev pub|record|data) (\w+)", everything(old))}
        changed_old, changed_new = {}, {}
        for name in sorted(names & set(a)):
            for crate, file, text in a[name]:
                same = [(f, x) for c, f, x in b.get(name, []) if c == crate]
                there = [x for f, x in same if f == file] or [x for _, x in same]
                if text not in there:
                    changed_old[crate, name] = text
                    changed_new[crate, name] = there[0] if there else []
        pairs("Lemmas that the documents named", changed_old, changed_new)


main()
