#!/usr/bin/env python3
"""Brings the project's own names to snake case: definitions, lemmas, constructors and fields of specs/ and proofs/, wherever they are cited.

usage: python3 tools/spell_names.py            at the top of the repository, once, right after port.py

`classOf` becomes `class_of` and `gap-end` becomes `gap_end`. Where a lemma would get the name of a definition it is called after it, with `_lem` behind.
Functions of src/, exported names, strings, inputs and outputs keep their names.
"""

import collections
import os
import re

WORD = r"[A-Za-z_][\w'-]*"
HEAD = re.compile(rf"^( *)(?:abbrev |unfoldable |pub |mutual |data |record )*({WORD}(?: [a-z_][\w'-]*)*) :(?!:)", re.M)

# names that port.py had respelt already, for the pages that it leaves alone
BY_PORT = """
add-a add-at add-eight add-start after-line after-list all-from all-in all-left all-of and-left and-right andThen answer-back answerIn answerOf as-step at-head at-least at-most at-room at-symbol
back-len bad-more bareTokens before-more below-apart between-le bits-of block-on both-right by-hand bytes-back bytesOf call-ends callAt callOf callWords calls-spec close-spec closed-in closed-on copyOf
count-small count-spec counted-stop counts-all digit-low digits-in digits-low digits-more digits-same else-is end-stays endedOf ends-on f-meets fill-on filled-within filling-step find-spec first-byte
first-head first-more first-of first-piece firstOf fits-all fits-by fits-cut fits-in fits-in-spec fits-last fits-on found-as found-in foundAt foundFrom fresh-kept fresh-on from-start front-length gap-other
give-all give-spec givenOf gives-at gives-back gives-line gives-none go-all go-on goes-on grow-last grow-spec head-in headOf heard-all held-fits held-in high-half highOf highWord in-block in-bytes in-kept
inBlock inside-is is-all is-made isEmpty items-left items-more kept-same kept-set kindAt kindOf knownOf laid-none later-same le-bytes le-next leaves-all left-end left-one len-is lenAt length-back lent-same
line-on lines-are lines-rest list-read list-right listsOf live-in low-half low-of lowOf lowWord mark-spec marked-other met-all modeOf more-given moved-same mul-words nameOf named-other named-small next-of
nextOf no-both no-call no-line no-room none-first none-left none-seen not-first number-lt number-read number-same numberAt numberIn numberOf one-answer one-byte one-left one-less one-line one-more or-right
other-at other-text out-none pair-fits part-length part-same partAt partOf past-end past-is past-top pastOf place-in place-is placeOf plain-in pre-is put-as put-order put-payload put-rest put-spec putOf
puts-none read-all read-at read-head read-int read-length read-name read-past read-same read-spec read-swapped read-whole readOf reads-short reads-whole record-is record-of rest-more right-is run-past
run-spec run-step same-bytes same-count same-length same-refl same-set same-text same-then seen-as seen-more sets-below shapeOf sideIn sideOf signed-is signed-no signed-same signedOf size-above size-below
size-top skip-block skip-stop slot-lt some-bytes some-left sound-more span-more spanOf spans-all spells-one start-is start-spec startOf stays-here step-fits step-in stepOf store-spec stored-at stored-past
sub-at symbolAt tableOf taken-is text-of then-is token-back token-end told-is told-none told-of too-few too-long tree-is treeOf turn-small turn-spec upTo upper-lt valO valS value-low value-pos value-read
value-same valueOf walked-stop whole-in whole-is wide-at wide-back wide-sign width-spec widthIn widthKind write-same write-spec written-same writtenOf wrong-first wrote-none at-copy enum-told is-plain one-deeper
""".split()

# lemmas that port.py gave the coming name of a definition, where both are in scope
LEMMAS = {"digits_in": ["lexer/proofs/Within"], "too_long": ["settings/proofs/Walking", "table/proofs/Steps"]}
# where the plain name is a token's already
OTHERS = {"atSign": "is_at_sign"}


def snake(name):
    name = name.replace("-", "_")
    return re.sub(r"(?<=[a-z0-9'])([A-Z])", lambda m: "_" + m.group(1).lower(), name)


def files(top, endings):
    for folder, dirs, names in os.walk(top):
        dirs[:] = sorted(d for d in dirs if d not in ("out", ".git", "target"))
        for name in sorted(names):
            if name.endswith(endings):
                yield os.path.join(folder, name)


def read(path):
    with open(path, encoding="utf-8") as f:
        return f.read()


def write(path, text):
    with open(path, "w", encoding="utf-8") as f:
        f.write(text)


def chosen():
    """The new name of each definition, lemma, constructor and field."""
    defined, local = set(), set()
    for path in files("crates", (".antt",)):
        parts = path.split(os.sep)
        local.update(re.findall(r"(?<![\w'.-])[a-z]+[A-Z][A-Za-z']*(?![\w'-])", re.sub("--.*", "", read(path))))
        if parts[2] == "specs" or len(parts) == 4:
            for m in HEAD.finditer(read(path)):
                defined.update(w for w in m.group(2).split() if not w[0].isupper())
    kept = {n for n in defined if snake(n) == n}
    new = {}
    # names of arguments and of imports under another name are turned alike
    for name in sorted(n for n in defined | local if "-" not in n and n not in kept):
        new[name] = OTHERS.get(name, snake(name))
    taken = kept | set(new.values())
    for name in sorted(n for n in defined if "-" in n):
        new[name] = snake(name) + ("_lem" if snake(name) in taken else "")
    return new


def respell(text, new):
    return re.sub(rf"(?<![\w'-]){WORD}", lambda m: new.get(m.group(0), m.group(0)), text)


def outside_strings(text, new):
    """The same, but for string literals of a Rattle file."""
    parts = re.split(r'("(?:[^"\\\n]|\\.)*")', text)
    return "".join(p if i % 2 else respell(p, new) for i, p in enumerate(parts))


def in_backticks(text, new):
    def words(m):
        return "`" + re.sub(WORD, lambda w: new.get(w.group(0), w.group(0)), m.group(1)) + "`"

    return re.sub(r"`([^`\n]*)`", words, text)


def lemmas_first():
    """Gives the lemmas of LEMMAS their ending, in their files and where they are imported from there."""
    for path in files("crates", (".antt",)):
        text = read(path)
        for name, homes in LEMMAS.items():
            modules = [h.replace("/", ".") for h in homes]
            here = any(path == os.path.join("crates", h + ".antt") for h in homes)
            imported = any(re.search(rf"use Rattle\.{re.escape(m)}\.\{{[^}}]*\b{name}\b", text) for m in modules)
            if here or imported:
                text = re.sub(rf"(?<![\w'.-]){name}(?![\w'-])", name + "_lem", text)
        write(path, text)


def main():
    lemmas_first()
    new = chosen()
    for path in files("crates", (".antt", ".edit")):
        write(path, respell(read(path), new))
    for path in files("crates", (".rt",)):
        write(path, outside_strings(read(path), new))
    told = new | {n: snake(n) for n in BY_PORT}
    for path in ["README.md", *files("docs", (".md",))]:
        write(path, in_backticks(read(path), told))
    print(f"{len(new)} names")


if __name__ == "__main__":
    main()
