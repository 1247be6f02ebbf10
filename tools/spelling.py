#!/usr/bin/env python3
"""spelling.py [FILE..]: brings the repository's own words to the spelling of today's Rattle, once.

Words of specs/ and proofs/ are in snake case: `primCount` becomes `prim_count`. A lemma that would then
have the name of the definition that it is about gets `_lem`. Types, modules, the functions of src/,
exported names and strings keep their names. Without FILE it goes over every .rt and .antt file below
crates/; a FILE (a page) is turned by the words found there.
"""
import glob
import re
import sys

WORD = re.compile(r"[A-Za-z_][\w'-]*")
CAMEL = re.compile(r"^[a-z][a-z0-9]*[A-Z]")
STRING = re.compile(r'"(?:[^"\\]|\\.)*"')

# lemmas that fall together with what they are about, and what they are called now
LEMMAS = {
    "any_below": "any_below_lem",
    "has_room": "has_room_lem",
    "insert_all": "insert_all_lem",
    "is_sorted": "is_sorted_lem",
}
# a test that would fall together with a lemma and a field
OTHERS = {"oneParent": "has_one_parent"}


def part(s):
    return re.sub(r"(?<=[a-z0-9])([A-Z])", lambda m: "_" + m.group(1).lower(), s) if CAMEL.match(s) else s


def snake(word):
    return "-".join(part(s) for s in word.split("-"))


def outside_strings(line, turn):
    out, at = [], 0
    for m in STRING.finditer(line):
        out += [turn(line[at : m.start()]), m.group(0)]
        at = m.end()
    return "".join(out + [turn(line[at:])])


def words_of(files):
    found = set()
    for p in files:
        for line in open(p, encoding="utf-8"):
            outside_strings(line.split("--")[0], lambda t: found.update(WORD.findall(t)) or t)
    return {w: OTHERS.get(w, snake(w)) for w in found if snake(w) != w}


def main(argv):
    antt = sorted(glob.glob("crates/*/specs/**/*.antt", recursive=True) + glob.glob("crates/*/proofs/**/*.antt", recursive=True))
    rust = sorted(glob.glob("crates/*/src/**/*.rt", recursive=True))
    words = words_of(antt)
    for p in argv or antt + rust:
        lemmas = LEMMAS if p.endswith(".antt") else {}

        # bare: not behind a dot, where it is a call of a function of src/
        def turn(text):
            def one(m):
                w = m.group(0)
                bare = not text[: m.start()].endswith(".")
                if w in lemmas and bare:
                    return lemmas[w]
                return words.get(w, w)

            return WORD.sub(one, text)

        old = open(p, encoding="utf-8").read()
        new = "\n".join(outside_strings(line, turn) for line in old.split("\n"))
        if new != old:
            open(p, "w", encoding="utf-8").write(new)


if __name__ == "__main__":
    main(sys.argv[1:])
