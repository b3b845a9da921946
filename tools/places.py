#!/usr/bin/env python3
"""Counts the places of docs/DESIGN-PASS.md in crates/*/src, at a commit and now, as rows of its table.
usage: tools/places.py COMMIT"""
import glob, io, re, subprocess, sys, tarfile, tempfile

PATTERNS = [
    ("1", "enums", r"^(?:pub )?enum "),
    ("1", "`?`", r"[)\w]\?(?=[;.)\n])"),
    ("2", "functions named after a size or a kind of room", r"\bfn \w*(?:least|tiny|small|middle|large|fewest|few|short|many|scanned|narrow)\w*(?=[(<])"),
    ("2", "const parameters", r"<const \w: usize>"),
    ("3", "`while`, `loop`", r"^ *(?:'\w+: )?(?:while|loop)\b"),
    ("3", "`for`", r"^ *(?:'\w+: )?for "),
    ("3", "`+= 1`", r"\+= 1;"),
    ("4", "casts, ` as u8` and so on", r" as (?:u8|u16|u32|u64|usize|i64)\b"),
    ("4", "`from(..)`, `into()`", r"\b(?:u16|u32|u64|usize|i64)::(?:try_)?from\(|\.into\(\)"),
    ("4", "`impl From`", r"^impl From<"),
    ("4", "`#[derive(Drop)]` alone", r"derive\(Drop\)"),
    ("5", "`requires`", r"^ *requires\b"),
    ("5", "facts of types (ghost fields)", r"^    ghost \w+: \{"),
    ("6", "`ends` and `ranges` as two parameters", r"\bends: &[^,\n]*,\s*ranges: &"),
    ("6", "`cells`, `carts`, `steps` as three parameters", r"\bcells: &[^,\n]*,\s*(?:at: usize,\s*)?carts: usize,\s*(?:steps|w): usize"),
    ("6", "three tables as three parameters", r"\broads: &\[u8\],\s*carts: &\[u8\],\s*paths: &\[u8\]"),
    ("6", "places worked out, `[2 *`, `[4 *`", r"\[[24] \*"),
    ("7", "closures", r"\|[&\w_(), :\[\]]+\| "),
]


def parameters(text):
    """how many parameters each function has"""
    for m in re.finditer(r"\bfn \w+(?:<[^>]*>)?\(", text):
        depth, count, some, i = 1, 0, False, m.end()
        while depth:
            depth += (text[i] in "([<") - (text[i] in ")]" or text[i] == ">" and text[i - 1] != "-")
            if depth == 1 and text[i] == ",":
                count, some = count + some, False
            elif depth and not text[i].isspace():
                some = True
            i += 1
        yield count + some


def facts(root):
    """the facts that three functions of a crate or more ask for, each with how many do: requirements, taken apart at each ×"""
    for crate in glob.glob(root + "/crates/*"):
        asked = {}
        for path in glob.glob(crate + "/src/*.rt"):
            text = re.sub(r" *//[^\n]*", "", open(path).read())
            for function in re.split(r"\bfn (?=\w+[<(])", text)[1:]:
                for m in re.finditer(r"^ *requires(?: \w+)? \{(.*)\}$", function, re.M):
                    for fact in re.sub(r"×(?![^(]*\))", "\n", m.group(1)).split("\n"):
                        fact = re.sub(r"^\((.*)\)$", r"\1", fact.strip())
                        asked.setdefault(fact, set()).add(path + function.split("(")[0])
        yield from (len(where) for where in asked.values() if len(where) >= 3)


def counts(root):
    text = re.sub(r" *//[^\n]*", "", "\n".join(open(path).read() for path in sorted(glob.glob(root + "/crates/*/src/*.rt"))))
    found = {(point, what): len(re.findall(pattern, text, re.M)) for point, what, pattern in PATTERNS}
    found["5", "facts that three functions or more ask for"] = len(list(facts(root)))
    found["5", "how often these are asked for"] = sum(facts(root))
    for least in (5, 7):
        found["5", f"functions of {least} parameters or more"] = sum(n >= least for n in parameters(text))
    for folder in ("specs", "proofs"):
        paths = glob.glob(root + f"/crates/*/{folder}/**/*.antt", recursive=True)
        found["8", f"lines of {folder}/"] = sum(len(open(path).read().split("\n")) - 1 for path in paths)
    found["8", "files of answers"] = len(glob.glob(root + "/crates/*/proofs/**/Answers.antt", recursive=True))
    found["", "functions"] = len(re.findall(r"\bfn \w+", text))
    found["", "lines of src/"] = sum(len(open(p).read().split("\n")) - 1 for p in glob.glob(root + "/crates/*/src/*.rt"))
    return found


def main():
    with tempfile.TemporaryDirectory() as old:
        archive = subprocess.run(["git", "archive", sys.argv[1]], check=True, stdout=subprocess.PIPE).stdout
        tarfile.open(fileobj=io.BytesIO(archive)).extractall(old, filter="data")
        then, now = counts(old), counts(".")
    for point, what in sorted(then, key=lambda key: key[0] or "9"):
        print(f"| {point} | {what} | {then[point, what]:,} | {now[point, what]:,} |")


main()
