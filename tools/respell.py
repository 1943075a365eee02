#!/usr/bin/env python3
"""Brings the repository's own definitions and lemmas to one spelling: words in snake case.

usage: tools/respell.py     at the top of the repository, once, right after port.py

A name is the repository's own where a file of specs/ or proofs/ declares it. Names of Rust sources, of libraries, types,
modules and goals keep their spelling. Where two names would fall together, the lemma takes `_lem`.
"""
import glob
import re

DECLARED = re.compile(r"^(\s*)((?:abbrev |unfoldable |pub )*)([^\s:(){}.,;]+)(?: \{[^}]*\})* :(?=\s)")
TOKEN = re.compile(r"(\s+|[(){}\[\],;⌜⌝]|\.)")
APART = {  # what would fall together with a definition: the lemma of it
    "computed-age": "computed_age_lem",
    "rounded-up": "rounded_up_lem",
    "byte-at": "byte_at_lem",
    "settings-words": "settings_words_lem",
    "settings-in": "settings_in_lem",
    "list-in": "list_in_lem",
    "first-free": "first_free_lem",
    "in-slot": "in_slot_lem",
}


def own_files():
    return sorted(glob.glob("crates/*/specs/**/*.antt", recursive=True) + glob.glob("crates/*/proofs/**/*.antt", recursive=True))


def crates():
    return sorted({f.split("/")[1] for f in glob.glob("crates/*/src")})


def generated(path):
    """A proof of a function: its names follow the goals'."""
    return path.endswith("/Proof.antt")


def to_turn(name):
    return not name[0].isupper() and ("-" in name[1:-1] or re.search(r"[a-z0-9][A-Z]", name)) and not set(name) & set("◌≡+*/<>")


def turned(name):
    if name in APART:
        return APART[name]
    return re.sub(r"(?<=[a-z0-9])([A-Z])", lambda m: "_" + m.group(1).lower(), name.replace("-", "_"))


def library_names(text, names_of_crates):
    found = set()
    for m in re.finditer(r"^\s*(?:pub )?use ([^\s;{]+)\.\{([^}]*)\}", text, re.M):
        if not re.match(r"Rattle\.(%s)\." % names_of_crates, m.group(1)):
            for item in m.group(2).split(","):
                found.add(item.split(" as ")[-1].strip())
    return found


def declared(text):
    return {m.group(3) for line in text.split("\n") if (m := DECLARED.match(line))}


def turn(text, names):
    out = []
    for part in TOKEN.split(text):
        of_a_step = part in APART and out[-1:] == ["."]
        out.append(part if of_a_step else names.get(part, part))
    return "".join(out)


def turn_code(text, names, comment):
    lines = []
    for line in text.split("\n"):
        at = re.search(r"(?:(?<=\s)|^)" + comment + r"(?=\s|$)", line)
        code, rest = (line[:at.start()], line[at.start():]) if at else (line, "")
        lines.append(turn(code, names) + turn_quoted(rest, names))
    return "\n".join(lines)


def turn_quoted(text, names):
    return re.sub(r"`[^`\n]*`", lambda m: turn(m.group(0).replace("`", " ` "), names).replace(" ` ", "`"), text)


def main():
    names_of_crates = "|".join(crates())
    everywhere = {}
    for f in own_files():
        if not generated(f):
            text = open(f, encoding="utf-8").read()
            for name in declared(text) - library_names(text, names_of_crates):
                if to_turn(name):
                    everywhere[name] = turned(name)
    for f in own_files():
        text = open(f, encoding="utf-8").read()
        library = library_names(text, names_of_crates)
        names = {k: v for k, v in everywhere.items() if k not in library}
        if not generated(f):  # what is named within a lemma alone
            for token in set(TOKEN.split(re.sub(r"--.*", "", text))):
                if token and to_turn(token) and re.fullmatch(r"[a-z][\w'₀-₉-]*", token) and token not in library and not re.search(r"\." + re.escape(token) + r"(?![\w'-])", text):
                    names[token] = turned(token)
        write(f, text, turn_code(text, names, "--"))
    for f in sorted(glob.glob("crates/*/src/**/*.rt", recursive=True)):
        text = open(f, encoding="utf-8").read()
        write(f, text, turn_code(text, everywhere, "//"))
    for f in sorted(glob.glob("crates/*/must-fail/*.edit")):
        text = open(f, encoding="utf-8").read()
        lines = [turn(l, everywhere) if l.startswith(("old:", "new:")) else turn_quoted(l, everywhere) for l in text.split("\n")]
        write(f, text, "\n".join(lines))
    for f in ["README.md"] + sorted(glob.glob("docs/*.md")):
        text = open(f, encoding="utf-8").read()
        write(f, text, turn_quoted(text, everywhere))


def write(path, old, new):
    if old != new:
        open(path, "w", encoding="utf-8").write(new)


if __name__ == "__main__":
    main()
