#!/usr/bin/env python3
"""Brings the repository's own definitions and lemmas to snake case, once, after Rattle's port.py: `python3 tools/respell.py LANDED`.

What port.py left: names in camel case and names with hyphens. Types keep their names; of a definition and a law whose names would
fall together, as `formatOf` and `format-of`, the law gets the ending _law. LANDED is the commit before port.py: six pairs of names
fell together there already, and are told apart by it. Edits in must-fail/, README.md and docs/ are respelled from LANDED's names.
"""
import collections
import glob
import os
import re
import subprocess
import sys

TOKEN = r"[^\s(){}\[\],;.:\"`|=λ→≡]+"
WORDS = r"(?:abbrev|unfoldable|pub|opaque)"


def declared(text):
    """The names that an antt file declares, in order: (name, kind, what follows)."""
    out, section, block = [], False, None
    for line in text.split("\n"):
        if re.match(r"^module\s+_", line):
            section, block = True, None
            continue
        if line and not line[0].isspace() and not line.startswith("--"):
            section, block = False, None
        m = re.match(rf"^\s*(?:{WORDS}\s+)*(data|record|ruleset)\s+({TOKEN})", line)
        if m:
            out.append((m.group(2), m.group(1), line))
            block = len(line) - len(line.lstrip())
            continue
        if re.match(r"^\s*(use|pub use|mod|pub mod|unfolding|open|infix\w*)\b", line) or line.lstrip().startswith("--"):
            continue
        m = re.match(rf"^(\s*)(?:{WORDS}\s+)*({TOKEN})\s*:(?!=)\s*(.*)$", line)
        if m:
            indent = len(m.group(1))
            if block is not None and indent > block:
                out.append((m.group(2), "member", m.group(3)))
            elif indent == 0 or (section and indent == 2):
                out.append((m.group(2), "definition", m.group(3)))
                block = None
        elif block is not None:
            m = re.match(rf"^\s*\|?\s*(?:pub\s+)?({TOKEN})\s*:(?!=)", line)
            if m:
                out.append((m.group(1), "member", line))
    return out


def snake(name):
    name = name.replace("-", "_").replace("′", "'")
    return re.sub(r"([a-z0-9])([A-Z])", lambda m: m.group(1) + "_" + m.group(2).lower(), name)


def own(name):
    """Whether a name is to be respelled by its look: camel case that begins small, or a hyphen in it."""
    return not name[0].isupper() and name[0] != "◌" and ("-" in name or re.search("[a-z0-9][A-Z]", name))


def landed(commit, path):
    shown = subprocess.run(["git", "show", f"{commit}:{path}"], capture_output=True, text=True)
    return shown.stdout if shown.returncode == 0 else None


def lemma_files():
    return sorted(glob.glob("crates/*/specs/**/*.antt", recursive=True) + glob.glob("crates/*/proofs/*.antt"))


def function_files():
    return sorted(set(glob.glob("crates/*/proofs/**/*.antt", recursive=True)) - set(lemma_files()))


def names_of(commit):
    """Each name's new spelling: from today's text, and from LANDED's."""
    kinds, source = collections.defaultdict(set), collections.defaultdict(set)
    for path in lemma_files():
        now, then = declared(open(path).read()), declared(landed(commit, path))
        assert len(now) == len(then), path
        for (name, kind, _), (old, _, _) in zip(now, then):
            if kind not in ("data", "record"):
                kinds[name].add(kind)
                source[name].add(old)
    for path in function_files():
        for name, kind, rest in declared(open(path).read()):
            if kind == "definition" and "Need-" not in rest and not name.endswith(("-spec", "_spec")):
                if own(name):
                    kinds[name].add(kind)
                    source[name].add(name)
    origins = {old for olds in source.values() for old in olds}
    camels = {snake(old) for old in origins if own(old) and "-" not in old}
    from_landed = {}
    for old in origins:
        if not own(old):
            continue
        new = snake(old)
        if "-" in old and new in camels:
            new += "_law"
        from_landed[old] = new
    from_now, merged = {}, {}
    for name, olds in source.items():
        news = {from_landed.get(old, old) for old in olds}
        if len(news) > 1:
            merged[name] = olds
        elif news != {name} and not name.startswith("◌"):
            from_now[name] = news.pop()
    for path in lemma_files():
        for name in within(open(path).read()) - set(kinds):
            from_now[name] = from_landed[name] = snake(name)
    from_now["Does-it"] = from_landed["Does-it"] = "DoesIt"
    return from_now, merged, from_landed


def within(text):
    """Names that a file declares inside sections and `where`, which `declared` passes over."""
    out = set()
    for line in text.split("\n"):
        m = re.match(rf"^\s*(?:{WORDS}\s+)*({TOKEN})\s*:(?!=)\s", line)
        if m and not line.lstrip().startswith("--") and own(m.group(1)):
            out.add(m.group(1))
    return out


def imported_from_elsewhere(text):
    """Names that a file takes from the libraries."""
    out = set()
    for path, names in re.findall(r"^(?:ghost )?use ([^\s{]+)\.\{([^}]*)\}", text, re.M):
        if not re.match(r"Rattle[.·](?!std\b)", path):
            out |= {n.strip() for n in names.split(",")}
    return out


def respell(text, names, comment, skip=frozenset(), strings=False):
    """The text with its names respelled, of a comment only what stands in backticks."""
    token = re.compile(TOKEN)

    def code(part):
        return token.sub(lambda m: m.group(0) if m.group(0) in skip else names.get(m.group(0), m.group(0)), part)

    def ticked(part):
        return re.sub(r"`[^`]*`", lambda m: "`" + code(m.group(0)[1:-1]) + "`", part)

    out = []
    for line in text.split("\n"):
        at = line.find(comment)
        body, rest = (line, "") if at < 0 else (line[:at], line[at:])
        if strings:
            pieces = re.split(r'("(?:[^"\\]|\\.)*")', body)
            body = "".join(p if p.startswith('"') else code(p) for p in pieces)
        else:
            body = code(body)
        out.append(body + ticked(rest))
    return "\n".join(out)


def unmerge(path, commit, text, merged, from_landed):
    """Names that port.py let fall together, told apart by the order in which they stand in LANDED."""
    before = landed(commit, path)
    token = re.compile(TOKEN)
    for name, olds in merged.items():
        if name not in text or before is None:
            continue
        skip = imported_from_elsewhere(before)
        order = [t for t in token.findall(before) if t in olds and t not in skip]
        found = [t for t in token.findall(text) if t == name]
        distinct = {from_landed[t] for t in order}
        if len(distinct) == 1:
            news = [distinct.pop()] * len(found)
        elif len(order) == len(found):
            news = [from_landed[t] for t in order]
        else:
            print(f"look: {path}: {name}: {len(order)} before, {len(found)} now")
            continue
        each = iter(news)
        text = token.sub(lambda m: next(each) if m.group(0) == name else m.group(0), text)
    return text


def main():
    commit = sys.argv[1]
    from_now, merged, from_landed = names_of(commit)
    for path in lemma_files() + function_files() + sorted(glob.glob("crates/*/src/**/*.rt", recursive=True)):
        text = old = open(path).read()
        if path.endswith(".antt"):
            text = unmerge(path, commit, text, merged, from_landed)
        elif any(name in text for name in merged):
            head, body = [], []
            for line in text.split("\n"):  # functions of src keep their names: only clauses and imports are told apart
                (head if line.startswith("ghost use") else body).append(line)
            text = unmerge(path, commit, text, {n: o for n, o in merged.items() if re.search(rf"ghost use .*\b{n}\b", text)}, from_landed)
        text = respell(text, from_now, "//" if path.endswith(".rt") else "--", imported_from_elsewhere(text), path.endswith(".rt"))
        if path in set(function_files()):
            folder = path.split("/")[-2]
            text = re.sub(rf"(?<![\w-]){re.escape(folder.replace('_', '-'))}[-_]spec(?![\w-])", folder + "_spec", text)
        if text != old:
            open(path, "w").write(text)
    for path in sorted(glob.glob("crates/*/must-fail/*.edit")):
        old = open(path).read()
        text = respell(old, from_landed, "\0", strings=True)
        if text != old:
            open(path, "w").write(text)
    for path in ["README.md"] + sorted(glob.glob("docs/**/*.md", recursive=True)):
        old = open(path).read()
        pieces = re.split(r"(```.*?```|`[^`\n]*`)", old, flags=re.S)
        text = "".join(respell(p, from_landed, "\0") if p.startswith("`") else p for p in pieces)
        if text != old:
            open(path, "w").write(text)


if __name__ == "__main__":
    main()
