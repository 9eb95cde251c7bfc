#!/usr/bin/env python3
"""Gives definitions, lemmas and fields of antt the spelling of today's Rattle.

usage: python3 tools/respell.py [--list]      at the top of a repository that the kit's port.py has just turned

Names in snake case, types and facts in upper camel case, no dash but between the names that a lemma is about, and two
crates under names that no library of the kit has. Goals, and whatever the source declares, keep their names.
With --list it writes nothing, and prints the renamings and the files where a new name stood already.
"""

import os
import re
import subprocess
import sys

# Two crates that the kit has libraries of the same name for.
CRATES = {"sha1": "sha1_hmac", "hex": "hexadecimal"}

# Where the plain rule makes a name that stands already, or that reads badly.
CHOSEN = {
    "by-session": "when_by_session",
    "done-now": "done_now_is",
    "last-now": "last_now_is",
    "eight-bytes": "eight_bytes_are_big_endian",
    "flag-byte": "flag_byte_lem",
    "is-kind": "is_kind_lem",
    "judged-whole": "judged_whole_lem",
    "sessions-used": "sessions_used_now",
    "state-after": "state_after_is",
    "tag-length": "tag_length_is",
    "getD-schedule": "get_or_schedule",
    "nameIn": "name_in",
    "textDigest": "text_digest",
    "soundOr": "sound_or",
}
# The same, in one crate alone.
CHOSEN_IN = {("worked", "well-formed"): "well_formed_lem"}

# What a lemma's name may begin with and keep its dash: the function that it is about.
ABOUT = {"length", "take", "drop", "at", "numeral"}

NAME = r"[A-Za-z_][A-Za-z0-9_'-]*"
MARKS = r"^\s*(?:(?:pub|abbrev|unfoldable|opaque|instance)\s+)*"
DECLARED = re.compile(MARKS + r"(?:ruleset\s+)?(" + NAME + r")\s*:(?!:)", re.M)
RECORD = re.compile(MARKS + r"(?:record|data)\s+(?:pub\s+)?(" + NAME + r")", re.M)
TOKEN = re.compile(r"(?<![A-Za-z0-9_'-])" + NAME)


def files(root, *endings):
    for folder, dirs, names in os.walk(os.path.join(root, "crates")):
        dirs[:] = sorted(d for d in dirs if d not in ("out", "target"))
        for name in sorted(names):
            if name.endswith(endings):
                yield os.path.join(folder, name)


def read(path):
    with open(path, encoding="utf-8") as f:
        return f.read()


def is_goal_file(path):
    return os.path.basename(path) in ("Answers.antt", "Invariants.antt", "Proof.antt", "Choices.antt")


def declared(root):
    """The names that specs/ and the lemma files declare, and those that source or goals have."""
    own, kept = set(), set()
    ours = set(os.listdir(os.path.join(root, "crates")))
    for path in files(root, ".antt", ".rt"):
        text = read(path)
        for module, names in re.findall(r"use (Rattle\.\w+|[\w.]+)[\w.+'-]*\.\{([^}]*)\}", text):
            if not (module.startswith("Rattle.") and module[7:] in ours):
                kept |= {n for item in names.split(",") for n in item.split(" as ")[-1:] for n in [n.strip()]}
    for path in files(root, ".antt"):
        text = re.sub(r"--.*", "", read(path))
        own |= set(RECORD.findall(text))
        for m in DECLARED.finditer(text):
            if m.group(1) in ("use", "mod", "where", "let", "in"):
                continue
            line = text[m.start():text.find("\n", m.end())]
            if is_goal_file(path) and ("goal." in line or "Given." in line):
                kept.add(m.group(1))
            else:
                own.add(m.group(1))
    return own, kept


def snake(name):
    name = re.sub(r"(?<=[a-z0-9])(?=[A-Z])", "_", name)
    return name.lower()


def respelled(name, own):
    if name in CHOSEN:
        return CHOSEN[name]
    parts = name.split("-")
    if name[0].isupper():
        return name if len(parts) == 1 else "".join(p[0].upper() + (p[1:].lower() if p.isupper() else p[1:]) for p in parts)
    plain = "_".join(snake(p) for p in parts)
    rest = "_".join(snake(p) for p in parts[1:])
    names = {"_".join(snake(p) for p in n.split("-")) for n in own}
    if len(parts) > 1 and parts[0] in ABOUT and rest in names:
        return parts[0] + "-" + rest
    return plain


def code_only(text, path):
    """The text with strings and comments blanked, of the same length."""
    def blank(m):
        return " " * len(m.group(0))
    comment = r"--[^\n]*" if path.endswith(".antt") else r"//[^\n]*"
    return re.sub(r'"(?:[^"\\\n]|\\.)*"|' + r"b?'(?:[^'\\\n]|\\.)'" + "|" + comment, blank, text) if path.endswith(".rt") else re.sub(r'"(?:[^"\\\n]|\\.)*"|' + comment, blank, text)


def replaced(text, path, table):
    code = code_only(text, path)
    out, last = [], 0
    for m in TOKEN.finditer(code):
        new = table.get(m.group(0))
        if new:
            out += [text[last:m.start()], new]
            last = m.end()
    out.append(text[last:])
    text = "".join(out)
    # In comments only what cannot be a word of English.
    for old, new in table.items():
        if re.search(r"[a-z][A-Z]", old) or (old[0].isupper() and "-" in old):
            text = re.sub(r"(?<![A-Za-z0-9_'.-])" + re.escape(old) + r"(?![A-Za-z0-9_'-])", new, text)
    return text


def rename_crates(root):
    done = {}
    for old, new in CRATES.items():
        if os.path.isdir(os.path.join(root, "crates", old)):
            subprocess.run(["git", "mv", "crates/" + old, "crates/" + new], cwd=root, check=True)
            done[old] = new
    path = os.path.join(root, "crates.txt")
    lines = []
    for line in read(path).splitlines(keepends=True):
        if not line.startswith("#"):
            for old, new in done.items():
                line = re.sub(r"\b" + old + r"\b", new, line)
        lines.append(line)
    with open(path, "w", encoding="utf-8") as f:
        f.write("".join(lines))
    for path in files(root, ".rt", ".antt"):
        text = read(path)
        new_text = text
        own_modules = set(re.findall(r"^(?:pub )?mod (\w+);", text, re.M))
        for old, new in done.items():
            new_text = re.sub(r"\bRattle\." + old + r"\.", "Rattle." + new + ".", new_text)
            if path.endswith(".rt") and old not in own_modules:
                new_text = re.sub(r"(?<![\w:])" + old + r"::", new + "::", new_text)
        if new_text != text:
            with open(path, "w", encoding="utf-8") as f:
                f.write(new_text)


def main(argv):
    root = subprocess.run(["git", "rev-parse", "--show-toplevel"], capture_output=True, text=True, check=True).stdout.strip()
    own, kept = declared(root)
    table = {}
    for name in sorted((own - kept) | CHOSEN.keys()):
        new = respelled(name, own)
        if new != name:
            table[name] = new
    if argv == ["--list"]:
        back = {}
        for old, new in table.items():
            print(f"{old} -> {new}")
            back.setdefault(new, []).append(old)
        for new, olds in back.items():
            if len(olds) > 1:
                print(f"twice: {new} of {', '.join(olds)}")
        for path in files(root, ".rt", ".antt"):
            tokens = set(TOKEN.findall(code_only(read(path), path)))
            for old in sorted(tokens & table.keys()):
                if table[old] in tokens:
                    print(f"meets: {os.path.relpath(path, root)}: {old} -> {table[old]}")
        return 0
    for path in files(root, ".rt", ".antt"):
        text = read(path)
        crate = os.path.relpath(path, os.path.join(root, "crates")).split(os.sep)[0]
        new = replaced(text, path, table | {old: new for (where, old), new in CHOSEN_IN.items() if where == crate})
        if new != text:
            with open(path, "w", encoding="utf-8") as f:
                f.write(new)
    rename_crates(root)
    return 0


if __name__ == "__main__":
    raise SystemExit(main(sys.argv[1:]))
