#!/usr/bin/env python3
"""Brings the repository's own definitions and lemmas to the kit's spelling, after the kit's port.py has run.

usage: python3 tools/respell.py     at the top of the repository, once

A definition in lower camel case, and a lemma, field or constructor with dashes, becomes snake case: numberOf is
number_of, count-over is count_over. Types, modules, functions of src/ and names of the kit's libraries stay. A lemma
that would fall together with another name of a file gets _lem behind it, and a field or constructor what BESIDE says. Files that walk the code (Proof.antt) keep
the names that they declare, and follow the names of others. Documents follow where a name stands in backticks. It
lays the crates out by rt fmt, and prints each old name with its new one.
"""
import collections
import glob
import re
import subprocess

NAME = r"[A-Za-z_][\w'₀-₉]*(?:-[\w'₀-₉]+)*"
TOKEN = re.compile(r"(?<![\w'₀-₉-])" + NAME)
CAMEL = re.compile(r"^[a-z][a-z0-9]*(?:[A-Z][A-Za-z0-9]*)+'?$")
DASHED = re.compile(r"^[a-z_][\w'₀-₉]*(?:-[\w'₀-₉]+)+$")
DECLARED = re.compile(r"^\s*(?:(?:unfoldable |abbrev |pub )*(" + NAME + r")\s*(?:\{[^\s{}]*\}\s*)?:|(?:pub )?(?:data|record) (" + NAME + r"))", re.M)
HELD = re.compile(r"^(?:pub )?(?:data|record) .*\n(?:(?:[ \t].*)?\n)*", re.M)
USE = re.compile(r"^\s*(?:pub )?use ((?:Rattle\.)?([A-Za-z]\w*)\.[\w.+]+?)(?:\.\{([^}]*)\}| as ([\w'-]+))?\s*$", re.M)
STEP = re.compile(r"\.(?:args|ensures|false|given|invariant|new|result|true)\b")
CRATES = {path.split("/")[1] for path in glob.glob("crates/*/src")}


# Fields and constructors of specs/ whose new name is that of a function beside them.
BESIDE = {
    **{it: "if_" + it.replace("-", "_") for it in "bad-header held-over index-over may-send no-role not-granted not-shortest output-short over-limit store-short tally-full turned-away".split()},
    **{it: "not_" + it.replace("-", "_") for it in "drops-last drops-last-answers-all leaves-reserved never-full refuses-all skips-reserved writes-past-end".split()},
    "are-bytes": "bytes_are",
    "byte-total": "byte_total_is",
    "frame-total": "frame_total_is",
    "own-mask": "by_own_mask",
    "raw-bytes": "raw_bytes_fit",
    "read-packet": "packet_read",
}


def snake(name):
    return re.sub(r"([a-z0-9])([A-Z])", r"\1_\2", name).lower().replace("-", "_")


def walks(path):
    return path.endswith("/Proof.antt")


def antt_files():
    return sorted(glob.glob("crates/*/specs/**/*.antt", recursive=True) + glob.glob("crates/*/proofs/**/*.antt", recursive=True))


def own_uses(text):
    """The names that a file imports from this repository's crates, the names that stand for its modules, and names of others."""
    names, modules, others = set(), set(), set()
    for use in USE.finditer(text):
        found = {part.split(" as ")[0].strip() for part in (use.group(3) or "").split(",")}
        if use.group(2) not in CRATES or ".declared." in use.group(1):
            others |= found
            continue
        names |= found
        modules.add(use.group(4) or use.group(1).split(".")[-1])
    return names, modules, others


def main():
    texts = {path: open(path, encoding="utf-8").read() for path in antt_files()}
    tokens = {path: set(TOKEN.findall(text)) for path, text in texts.items()}
    declared = {path: {a or b for a, b in DECLARED.findall(text)} for path, text in texts.items()}
    camel = {name for found in tokens.values() for name in found if CAMEL.match(name)}
    dashed = collections.defaultdict(set)
    for path, names in declared.items():
        if not walks(path):
            for name in names:
                if DASHED.match(name):
                    dashed[name].add(path)
    held = {a or b for path, text in texts.items() if not walks(path) for part in HELD.findall(text) for a, b in DECLARED.findall(part)}

    renamed = {name: snake(name) for name in camel}
    uses = {path: own_uses(text) for path, text in texts.items()}

    def followed(path, name):
        """Whether a dashed name of this file is one of this repository's."""
        if name not in dashed or name in uses[path][2]:
            return False
        return name in held or name in uses[path][0] or (not walks(path) and name in declared[path])

    for name in sorted(dashed):
        new = snake(name)
        where = [path for path in texts if name in tokens[path] and followed(path, name)]
        taken = any(new in tokens[path] or new in {renamed[it] for it in tokens[path] if it in renamed} for path in where)
        renamed[name] = BESIDE[name] if name in BESIDE else new + "_lem" if taken else new

    def turned(path, text):
        def word(match):
            name, before = match.group(0), text[: match.start()]
            if name in camel:
                return renamed[name]
            if name not in dashed:
                return name
            if before.endswith("."):
                module = re.search(r"([\w'-]+)\.$", before)
                if walks(path) and STEP.match(text, match.end()):
                    return name
                return renamed[name] if name in held or (module and module.group(1) in uses[path][1]) else name
            line = before[before.rfind("\n") + 1 :]
            if "--" in line and before.endswith("`"):
                return renamed[name]
            return renamed[name] if followed(path, name) else name

        return TOKEN.sub(word, text)

    stands = {renamed.get(name, name) for names in declared.values() for name in names}

    def named(word):
        """A name in a document, which may be one that port.py has turned."""
        name = word.group(0)
        if name in renamed:
            return renamed[name]
        return snake(name) if (CAMEL.match(name) or DASHED.match(name)) and snake(name) in stands else name

    for path, text in texts.items():
        write(path, text, turned(path, text))
    for path in sorted(glob.glob("crates/*/src/**/*.rt", recursive=True)):
        text = open(path, encoding="utf-8").read()
        write(path, text, TOKEN.sub(lambda m: renamed[m.group(0)] if m.group(0) in camel else m.group(0), text))
    for path in ["README.md", *sorted(glob.glob("docs/*.md"))]:
        text = open(path, encoding="utf-8").read()
        write(path, text, re.sub(r"`[^`\n]+`", lambda quoted: TOKEN.sub(named, quoted.group(0)), text))
    for crate in sorted(CRATES):
        subprocess.run(["rt", "fmt"], cwd="crates/" + crate, stdout=subprocess.DEVNULL, check=True)
    for name in sorted(renamed):
        print(name, renamed[name])


def write(path, old, new):
    if old != new:
        with open(path, "w", encoding="utf-8") as file:
            file.write(new)


main()
