#!/usr/bin/env python3
"""Brings the names of definitions, lemmas and fields of specs/ and proofs/ to snake case, as today's Rattle spells them.

usage: python3 tools/respell.py          at the top of the repository, once, after the toolchain's own script

It renames what this repository defines in specs/ and in the lemma files of proofs/, and their uses there, in the clauses of src/ and in
the must-fail edits. Types, records and modules keep their capitals; functions of src/, names that the checker makes, and names that a
file brings in from a library stay. It tells where two names would fall together.
"""
import os
import re
import sys

CRATES = "crates"
# Names that would fall together with another one: a lemma that would have its definition's name gets `_lem`.
LEMMAS = (
    "check-syndrome content-suits counts-told first-accounting first-stray forward-word length-suits length-told many-pointed maps-changed maps-suit "
    "most-marks no-pointers one-error padding-answer parity-syndrome spare-clear standard-map standard-words told-changed two-errors value-at"
).split()
BY_HAND = {name: name.replace("-", "_") + "_lem" for name in LEMMAS} | {
    "map_back": "map_back_lem",
    "place-told": "place_as_told",
    "isOne": "is_one_pointer",
    "bit-or": "bit_of_or",
    "bit_xor": "bit_of_xor",
    "Has-one": "has_one",
}
NAME = r"[^\s(){};,.:\[\]\"⌜⌝‵`|]+"
TOKEN = re.compile(r"(?<![^\s(){};,.:\[\]\"⌜⌝`])(\.?)(" + NAME + r")")
DEFINED = re.compile(
    r"(?m)^[ ]*(?:unfoldable |abbrev |pub )*(?:record |data )?(?:\()?(" + NAME + r")((?: " + NAME + r")*)[ ]*(?=(?:[({][^\n]*[)}] *)?:[ \n])"
)
FIELD = re.compile(r"(?m)^  (?:  )?(?:pub )?(" + NAME + r")[ ]*:[ \n]")
USE = re.compile(r"\buse ([\w.+·]+)\.\{([^}]*)\}")


def files(root):
    for folder, dirs, names in os.walk(root):
        dirs[:] = sorted(d for d in dirs if d != "out")
        for name in sorted(names):
            if name.endswith((".antt", ".rt", ".edit")):
                yield os.path.join(folder, name)


def is_lemma_file(path):
    parts = path.split(os.sep)
    return path.endswith(".antt") and parts[-1] not in ("Lib.antt", "Proof.antt") and parts[2] in ("specs", "proofs")


def code(text):
    return re.sub(r"--[^\n]*", "", text)


def snake(name):
    """A name in snake case: a dash and a capital inside a word become an underscore."""
    if name in BY_HAND:
        return BY_HAND[name]
    if name[0].isupper() and "-" not in name:
        return name
    name = name.replace("getD", "get_or")
    name = re.sub(r"(?<=[a-z0-9])([A-Z])", lambda m: "_" + m[1].lower(), name)
    return re.sub(r"(?<=\w)-(?=\w)", "_", name)


def definitions(texts):
    defined, fields = set(), set()
    for path, text in texts.items():
        if not is_lemma_file(path):
            continue
        text = code(text)
        for found in DEFINED.finditer(text):
            for name in [found[1], *found[2].split()]:
                if re.match(r"[A-Za-zα-ωμ]", name):
                    defined.add(name)
        for record in re.finditer(r"(?ms)^ *(?:pub )?record .*?(?=^\S|\Z)", text):
            fields |= set(FIELD.findall(record[0]))
    return defined, fields


def from_libraries(text, own):
    """What a file brings in from a library, whose spelling is the library's."""
    names = set()
    for path, listed in USE.findall(text):
        parts = path.split(".")
        if parts[0] == "Rattle" and parts[1] in own:
            continue
        for name in listed.split(","):
            names.add(name.strip().split(" as ")[-1])
    return names


def aliases(text, own):
    """The short names that a file gives to modules of this repository."""
    found = re.findall(r"\buse Rattle\.(\w+)\.(?:specs|proofs)\.([\w.+]+) as ([\w-]+)", text)
    return {short for crate, path, short in found if crate in own and path.split(".")[-1] not in ("Tie", "Goals", "Given", "Code", "Statement")}


def respelled(path, text, table, fields, own):
    kept = from_libraries(text, own)
    modules = aliases(text, own)

    def turn(found):
        dot, name = found[1], found[2]
        of_module = dot and re.search(r"[\w-]+$", found.string[: found.start()])
        if name in kept or name not in table or (dot and name not in fields and not (of_module and of_module[0] in modules)):
            return found[0]
        return dot + table[name]

    def turn_line(line):
        if path.endswith(".antt"):
            comment = re.search(r"(^|\s)--(\s|$)", line)
            if comment:
                head, tail = line[: comment.start()], line[comment.start():]
                tail = re.sub(r"`([^`\n]+)`", lambda m: "`" + TOKEN.sub(turn, m[1]) + "`", tail)
                return TOKEN.sub(turn, head) + tail
            return TOKEN.sub(turn, line)
        if path.endswith(".rt"):
            if re.match(r"\s*ghost use ", line) or re.match(r"\s*(requires|ensures|ghost|decreases)\b", line):
                return TOKEN.sub(turn, line)
            comment = re.search(r"(^|\s)//", line)
            if comment:
                head, tail = line[: comment.start()], line[comment.start():]
                return head + re.sub(r"`([^`\n]+)`", lambda m: "`" + TOKEN.sub(turn, m[1]) + "`", tail)
            return line
        if re.match(r"(old|new): ", line) and antt_edit:
            return TOKEN.sub(turn, line)
        return line

    antt_edit = path.endswith(".edit") and re.search(r"(?m)^file: .*\.antt$", text)
    return "".join(turn_line(line) for line in text.splitlines(keepends=True))


def main():
    own = {d for d in os.listdir(CRATES) if os.path.isdir(os.path.join(CRATES, d, "src"))}
    texts = {}
    for path in files(CRATES):
        with open(path, encoding="utf-8") as f:
            texts[path] = f.read()
    defined, fields = definitions(texts)
    table = {name: snake(name) for name in defined | set(BY_HAND) if snake(name) != name}
    clash = {}
    for name, to in table.items():
        clash.setdefault(to, set()).add(name)
    for to, names in sorted(clash.items()):
        if to in defined and to not in table:
            names.add(to)
        if len(names) > 1 and not names <= set(BY_HAND):
            places = {n: [p for p, t in texts.items() if is_lemma_file(p) and re.search(r"(?m)^ *(?:unfoldable |abbrev |pub )*" + re.escape(n) + r"[ (:]", code(t))] for n in names}
            print("falls together:", to, places)
    for path, text in texts.items():
        kept = from_libraries(text, own)
        for name in {m[2] for m in TOKEN.finditer(code(text))} & set(table):
            if table[name] in kept and name not in kept:
                print("as the library's:", path, name, table[name])
    if "--check" in sys.argv:
        print(len(table), "names")
        return
    for path, text in texts.items():
        new = respelled(path, text, table, fields, own)
        if new != text:
            with open(path, "w", encoding="utf-8") as f:
                f.write(new)
    print(len(table), "names")


if __name__ == "__main__":
    main()
