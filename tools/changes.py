#!/usr/bin/env python3
"""Prints, as tables in Markdown, each public signature, clause, type, definition and theorem that differs between a commit and the working tree.

usage: changes.py COMMIT      at the top of the repository
A theorem stands here where it stands in specs/, or where README.md or docs/ name it; one in a module of a file of proofs with that module's parameters."""
import os, re, subprocess, sys

commit = sys.argv[1]


def git(*words):
    return subprocess.run(["git", *words], capture_output=True, text=True, check=True).stdout


def old_files():
    names = [n for n in git("ls-tree", "-r", "--name-only", commit, "crates").split("\n") if n.endswith((".rt", ".antt"))]
    batch = subprocess.run(["git", "cat-file", "--batch"], input="".join(f"{commit}:{n}\n" for n in names), capture_output=True, text=True, check=True).stdout.encode()
    out, at = {}, 0
    for n in names:
        end = batch.index(b"\n", at)
        size = int(batch[at:end].split()[2])
        out[n] = batch[end + 1:end + 1 + size].decode()
        at = end + 1 + size + 1
    return out


def new_files():
    names = [n for n in git("ls-files", "crates").split("\n") if n.endswith((".rt", ".antt")) and os.path.exists(n)]
    return {n: open(n, encoding="utf-8").read() for n in names}


def flat(text):
    text = re.sub(r"(?m)^\s*(//|--).*$", "", text)
    text = re.sub(r"#\[tactic\([^\]]*\]", "", text)
    text = re.sub(r"\s+", " ", text).strip()
    return re.sub(r",\s*\)", ")", text.replace("( ", "(").replace(" )", ")"))


def module(path):
    crate, rest = path.split("/", 2)[1:]
    rest = re.sub(r"^(src|specs|proofs)/", "", rest)
    rest = re.sub(r"\.(rt|antt)$", "", rest)
    return crate + ("" if rest in ("lib", "main", "Lib") else "::" + rest.replace("/", "::"))


def within_modules(text):
    """(name, text) of each theorem that stands in a module of its file, with the modules around it."""
    around, lines = [], text.split("\n")
    for i, line in enumerate(lines):
        if not line.strip() or line.lstrip().startswith("--"):
            continue
        indent = len(line) - len(line.lstrip())
        around = [(n, m) for n, m in around if n < indent]
        if re.match(r"\s*module ", line):
            around.append((indent, line.strip()))
        head = re.match(r"\s+pub ([^\s:(){}]+)", line)
        if head and around:
            body = [line]
            for more in lines[i + 1:]:
                if not more.strip() or re.match(rf"\s*(?:unfolding\b|{re.escape(head.group(1))}(?:\s|$))", more):
                    break
                body.append(more)
            yield head.group(1), flat(" ".join(m for n, m in around) + " " + "\n".join(body))


def items(files):
    """(kind, name) -> text, for what callers and contracts see."""
    out = {}
    for path, text in files.items():
        where = module(path)
        if "/src/" in path and path.endswith(".rt"):
            owner, inner = None, False
            lines = text.split("\n")
            i = 0
            while i < len(lines):
                line = lines[i]
                m = re.match(r"impl(?:<.*?>)? (?:(.+) for )?([A-Za-z]\w*)", line)
                if m:
                    owner, inner = m.group(2), m.group(1)
                    if inner:
                        j = i
                        while not lines[j].rstrip().endswith("{}") and not lines[j].startswith("}"):
                            j += 1
                        ghost = [l for l in lines[i:j + 1] if l.strip().startswith("ghost ") and " use " not in l]
                        out[("impl", f"{where}::{inner} for {owner}")] = flat(line + " " + " ".join(ghost))
                        i = j
                        owner = None
                elif line.startswith("}"):
                    owner = None
                m = re.match(r"( *)pub (?:unsafe )?(?:extern \"C\" )?fn (\w+)", line)
                if m:
                    indent = m.group(1)
                    j = i
                    while not (lines[j] == indent + "{" or lines[j].rstrip().endswith("{") and not lines[j].strip().startswith(("requires", "ensures"))):
                        j += 1
                    head = "\n".join(lines[i:j + 1]).rstrip("{ \n")
                    out[("function", f"{where}::{owner + '::' if owner and indent else ''}{m.group(2)}")] = flat(head)
                    i = j
                m = re.match(r"pub (struct|enum|const|static|trait) (\w+)", line)
                if m:
                    j = i
                    while i and lines[i - 1].startswith("#["):
                        i -= 1
                    if not line.rstrip().endswith((";", "}")):
                        while not lines[j].startswith(("}", "];", ");")):
                            j += 1
                    out[("type", f"{where}::{m.group(2)}")] = flat("\n".join(lines[i:j + 1]))[:700]
                    i = j
                i += 1
        elif path.endswith(".antt") and ("/specs/" in path or "/proofs/" in path):
            kind = "definition" if "/specs/" in path else "theorem"
            if kind == "theorem":
                out.update(((kind, f"{where}::{name}"), body) for name, body in within_modules(text))
            block = []
            for line in text.split("\n") + ["", "x"]:
                if line and not line[0].isspace() and not line.startswith("--") and block and not re.match(r"unfolding |where", line):
                    head = re.match(r"(?:(?:abbrev|unfoldable|pub|opaque|private) )*(?:record |data |module )?([^\s:(){}]+)", block[0])
                    first = head.group(1) if head else ""
                    same = re.match(r"([^\s:(){}]+)", line)
                    # a line of the same name goes on with its block
                    if same and same.group(1) == first and not re.match(r"(abbrev|unfoldable|pub|record|data|use|module)\b", line):
                        block.append(line)
                        continue
                    if first and not block[0].startswith("use ") and not re.match(r"pub mod|mod ", block[0]):
                        body = "\n".join(block)
                        if kind == "theorem":
                            body = re.split(rf"\n(?:unfolding[^\n]*\n)?{re.escape(first)}\b", body)[0]
                        out[(kind, f"{where}::{first}")] = flat(body)
                    block = []
                if line.strip() and not line.startswith("--"):
                    block.append(line)
    return out


def named(kind, name, words):
    if kind != "theorem":
        return True
    last = name.split("::")[-1]
    return last in words and not re.search(r"::(Answers|Invariants|Proof|Cited)::", name) and ("-" in last or "_" in last and len(last) > 1)


def main():
    old, new = items(old_files()), items(new_files())
    pages = "\n".join(open(p, encoding="utf-8").read() for p in ["README.md", *(f"docs/{n}" for n in sorted(os.listdir("docs"))) ] if p.endswith(".md") and not p.endswith(("DESIGN-PASS.md",)))
    before = "\n".join(git("show", f"{commit}:{n}") for n in git("ls-tree", "-r", "--name-only", commit, "README.md", "docs").split())
    words = set(re.findall(r"[\w?'≡≢∷-]+", pages + before))
    cell = lambda t: "`" + t.replace("|", "\\|").replace("`", "'") + "`" if t else ""
    for kind, title in [("function", "Public functions"), ("type", "Public types and constants"), ("impl", "Impls"), ("definition", "Definitions and theorems in specs/"), ("theorem", "Theorems of proofs/ that README.md or docs/ name")]:
        rows = []
        for key in sorted({k for k in {*old, *new} if k[0] == kind}, key=lambda k: k[1]):
            a, b = old.get(key, ""), new.get(key, "")
            if a != b and named(kind, key[1], words):
                rows.append((key[1], a, b))
        changed = sum(1 for r in rows if r[1] and r[2])
        gone, come = sum(1 for r in rows if not r[2]), sum(1 for r in rows if not r[1])
        print(f"\n### {title}: {changed} changed, {gone} gone or moved, {come} new\n")
        print("| where | before | now |\n|---|---|---|")
        for n, a, b in rows:
            print(f"| {n} | {cell(a)} | {cell(b)} |")


main()
