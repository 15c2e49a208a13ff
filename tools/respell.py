#!/usr/bin/env python3
"""Brings this repository's own names to the spelling of today's Rattle, after the kit's port.py.

usage: tools/respell.py      at the top of the repository, once, on what port.py left

- Definitions and laws in snake case: `readText` is `read_text`. Types keep their capital, a dash joins the words of a law's name as before.
- A law that would fall together with a definition gets `_lem`.
- The crate `log` is `log_run`, since the kit has a library of that name.
- Each crate's root file asks for the tactics.
"""
import os
import re
import subprocess

WORD = re.compile(r"(?<![\w'-])[^\W\d][\w'-]*", re.UNICODE)

# laws whose name, in snake case, is that of a definition too
LAWS = {
    "head_at": ["record_union/proofs/Joining.antt"],
    "ruled_out": ["text_lines/proofs/Signs.antt", "text_lines/proofs/Says.antt", "log_forms/proofs/productions/Choosing.antt"],
    "left_by": ["record/proofs/Order.antt", "graph/proofs/links/Rings.antt"],
    "one_line": ["unity_text/proofs/Limit.antt", "unity_text/proofs/RoundTrip.antt"],
    "line_read": ["log_commands/proofs/Lines.antt"],
    "first_by": ["voting/proofs/Proposed.antt"],
}

# names of calls in proof files that port.py took for others
MISTAKEN = {"is_Known": "is-known", "read_Some": "read-some", "nothing_Lent": "nothing-lent"}


def sources():
    for folder, dirs, files in os.walk("crates"):
        dirs[:] = [d for d in dirs if d != "out"]
        for name in sorted(files):
            if name.endswith((".antt", ".rt")):
                yield os.path.join(folder, name)


def read(path):
    with open(path, encoding="utf-8") as file:
        return file.read()


def write(path, text):
    with open(path, "w", encoding="utf-8") as file:
        file.write(text)


def snake(word):
    def part(p):
        if not p or not p[0].islower() or "_" in p and re.search(r"_[A-Z]", p):
            return p
        p = p.replace("getD", "get_or")
        return re.sub(r"_?([A-Z])", lambda m: "_" + m.group(1).lower(), p)

    return "-".join(part(p) for p in word.split("-"))


def respelled(text):
    def one(match):
        word = match.group(0)
        return MISTAKEN.get(word) or snake(word)

    return WORD.sub(one, text)


def laws_renamed(path, text):
    for law, files in LAWS.items():
        if any(path.endswith("crates/" + f) or path == "crates/" + f for f in files):
            text = re.sub(r"(?<![\w'.:-])" + law + r"(?![\w'-])", law + "_lem", text)
    return text


def crate_renamed(text):
    text = re.sub(r"(?<![\w.])Rattle\.log\.", "Rattle.log_run.", text)
    return re.sub(r"(?<![\w:])log::(?=[a-z{])", "log_run::", text)


def asks_for_tactics(path, text):
    if not path.endswith(("/src/lib.rt", "/src/main.rt")) or "#![tactic(" in text:
        return text
    lines = text.split("\n")
    at = 0
    while at < len(lines) and lines[at].startswith("//"):
        at += 1
    # below the comment that heads the file
    return "\n".join(lines[:at] + ["#![tactic(auto)]", ""] + lines[at:])


def main():
    for path in sources():
        text = read(path)
        new = asks_for_tactics(path, crate_renamed(respelled(laws_renamed(path, text))))
        if new != text:
            write(path, new)
    subprocess.run(["git", "mv", "crates/log", "crates/log_run"], check=True)
    text = read("crates.txt")
    lines = [line if line.startswith("#") else re.sub(r"(?<!\w)log(?!\w)", "log_run", line) for line in text.split("\n")]
    write("crates.txt", "\n".join(lines))


if __name__ == "__main__":
    main()
