#!/usr/bin/env python3
"""Brings the names of this repository's definitions and lemmas to Rattle's spelling: words and lemmas in snake case, facts (what is of
`Type 0`) in upper camel case.

usage: respell.py [--list]

Run once at the top of a checkout, after port.py of the kit. Names that a proof by hand (Proof.antt) declares stay, since Rattle
prescribes them, and so do names that a file imports from another library. It turns .antt files, the clauses and comments of .rt files,
must-fail edits, and names in backquotes of README.md and docs/. --list prints the names and those that would fall together.
"""
import collections
import glob
import re
import sys

OWN = [line.split(":")[0].split()[0] for line in open("crates.txt") if line.strip() and not line.startswith("#")]
SIGNATURE = re.compile(
    r"( *)(?:(?:abbrev|unfoldable|private|pub) )*(record |data )?(?:pub )?([A-Za-z][^\s(){}\[\]:;,.`\"]*)((?: +[({][^=]*)?) +:(?= |$)(.*)"
)
TOKEN = re.compile(r"[^\s(){}\[\];:,.`\"«»@]+")
USE = re.compile(r"(?:ghost )?(?:pub )?use ([^\s{;]+?)(?:\.\{(.*)\})?;?(?: as \S+)?$")
# Names that another spelling of ours would meet, and names of one spelling for a fact and a lemma, by the folder that they are told apart by.
OTHERS = {
    "date-of": "date_on",
    "session-of": "session_for",
    "state-of": "state_for",
    "suspended-of": "suspension_of",
}
# Names that port.py respells in .antt and .rt files, which edits and pages still have.
PORTED = """
    ad-is added-more added-none after-turn all-append all-blocks all-but all-digits all-drop all-fit all-laid all-placed all-take allBelow and-assoc
    and-left and-right answerOf answers-of any-append any-same as-before as-it-was as-long as-read at-count at-last at-left at-mark at-most at-once
    at-other at-place back-by back-fits back-none back-step below-more below-one below-out below-set bin-ind block-at block-of block-one block-out
    block-read block-row block-same blocks-more both-left both-right both-ways by-bytes by-end by-form by-front by-itself by-key by-lines byte-at
    bytes-after bytes-back bytes-of bytes-same bytesOf c-call call-same calls-same cells-at closed-at comes-back count-add count-fits count-none
    counts-of cut-around cut-at cut-off data-is decimal-digit done-next each-at each-left each-long each-on each-opens either-left end-is ended-same
    entries-at every-append every-byte every-element every-in every-more field-row filled-more filled-none first-block first-byte first-key first-more
    first-of fits-all fits-by found-inside found-none found-number found-some from-itself from-low from-start front-long front-of front-rest get-none
    given-is gives-back goes-back goes-before goes-on going-on gone-long has-both has-left head-in head-tail headOf held-out held-reads holds-after
    holds-tag in-b in-head in-order in-parts in-place in-three in-use is-among is-some is-state is-whole join-kept kept-byte kept-out key-of key-row
    known-bytes last-of last-one last-turn leads-one leaves-all left-by left-is lends-again lent-back line-at lineOf linesOf listed-back low-half
    made-again made-all made-more made-none made-one map-below map-row map-same mark-of mask-end mode-of modeOf more-lt moved-more moved-none
    never-both newB next-place no-digit no-key no-line no-longer no-more no-origin no-other no-room no-such no-text none-before none-done none-from
    none-of none-right none-within none-yet not-end not-found not-left not-named not-none not-there not-yet nothing-left number-append number-at
    number-is number-lt number-more number-of number-read numberOf numbered-more numbered-next of-number on-test once-more one-below one-block
    one-by-one one-byte one-further one-less one-more one-of one-product openedOf or-else or-right other-key out-below out-none out-of-range
    own-behind own-square pAt part-at part-out past-by past-end past-fits place-inside place-of placed-at power-zero product-lt put-all put-first
    put-fit put-front put-next put-three put-two put-whole raised-at read-as read-behind real-of room-back room-for room-of row-at row-drop row-of
    run-fits run-is run-more run-none runs-lead same-answer same-first same-length same-more same-not same-number same-refl seen-more seen-none
    set-first sets-end slice-all so-far so-far-more stands-after stands-on start-first start-right stateOf stay-of stays-at step-back steps-back
    store-apart store-both store-kept sum-is sum-lt sum-more sum-of sumOf tag-at tag-in tag-is tag-of tag-read tail-of taken-out text-of text-out
    text-out-at the-end there-and-back told-none too-far too-long top-bit turn-last turn-more turned-by turned-round turned-turn turns-fit two-blocks
    two-digits under-all under-more under-none up-to walk-at walk-first way-back whole-length whole-out within-block word-at words-of words-row
    wordsOf writes-at written-all written-at written-none written-of
""".split()
WITHIN = {
    "crates/cases/": {"until": "Until", "has": "Has", "no_such": "NoSuch"},
    "crates/scheduler/": {"turn-leaves": "TurnLeaves"},
    "crates/scheduler_c/": {"turn-leaves": "TurnLeaves"},
    "crates/tulvekas/": {"turn-leaves": "TurnLeaves"},
    "crates/claims_c/": {"turn-leaves": "TurnLeaves"},
    "crates/claims_scheduler/specs/": {"turn-leaves": "TurnLeaves"},
}


def snake(name):
    name = re.sub(r"(?<=[a-z0-9])([A-Z])", lambda it: "_" + it[1].lower(), name)
    return name.replace("-", "_")


def camel(name):
    return "".join(part[:1].upper() + part[1:] for part in re.split(r"[-_]", name))


def is_hand(path):
    return path.endswith("/Proof.antt")


def result_of(text):
    return text.replace(" where", "").strip().split("→")[-1].strip()


def declared(path):
    """The names that a file declares, each with whether it is a fact."""
    out = {}
    for line in open(path):
        it = SIGNATURE.match(line.rstrip("\n"))
        if it and not line.lstrip().startswith("--"):
            fact = bool(it[2]) or result_of(it[5]) in ("Type 0", "Type 1")
            out[it[3]] = out.get(it[3], False) or fact
    return out


def imported(text):
    """The names that a file imports from other libraries."""
    out = set()
    for line in text.split("\n"):
        it = USE.match(line.strip())
        if it and it[2] and not (it[1].startswith("Rattle.") and it[1].split(".")[1] in OWN):
            for part in it[2].split(","):
                out.add(part.strip().split(" as ")[-1])
    return out


def names():
    new, kinds = {}, collections.defaultdict(set)
    for path in sorted(glob.glob("crates/*/specs/**/*.antt", recursive=True) + glob.glob("crates/*/proofs/**/*.antt", recursive=True)):
        if is_hand(path):
            continue
        for name, fact in declared(path).items():
            kinds[name].add(fact)
    for name, facts in kinds.items():
        fact = facts == {True}
        if any(name in some and name == some[name].lower() for some in WITHIN.values()) or name == "no_such":
            continue
        if fact and (name[0].islower() or "-" in name):
            new[name] = camel(name)
        elif not fact and name[0].islower() and re.search(r"-|[a-z0-9][A-Z]", name):
            new[name] = snake(name)
        elif not fact and name[0].isupper() and "-" in name:
            new[name] = name.replace("-", "_")
    for name in OTHERS:
        if name in new:
            new[name] = OTHERS[name]
    return new, kinds


def turned(text, new, kept):
    return TOKEN.sub(lambda it: new[it[0]] if it[0] in new and it[0] not in kept else it[0], text)


def in_quotes(text, new, kept):
    return re.sub(r"`[^`\n]*`", lambda it: turned(it[0], new, kept), text)


def antt(text, new, kept):
    out = []
    for line in text.split("\n"):
        code, sign, comment = line.partition("--") if re.search(r"(^|\s)--(\s|$)", line) else (line, "", "")
        out.append(turned(code, new, kept) + sign + in_quotes(comment, new, kept))
    return "\n".join(out)


def rust(text, new, kept):
    out = []
    for line in text.split("\n"):
        code, sign, comment = line.partition("//") if re.search(r"(^|\s)//(\s|$)", line) else (line, "", "")
        parts = re.split(r'("(?:[^"\\]|\\.)*")', code)
        code = "".join(part if i % 2 else turned(part, new, kept) for i, part in enumerate(parts))
        out.append(code + sign + in_quotes(comment, new, kept))
    return "\n".join(out)


def main():
    new, kinds = names()
    files = {}
    for path in glob.glob("crates/*/specs/**/*.antt", recursive=True) + glob.glob("crates/*/proofs/**/*.antt", recursive=True):
        text = open(path).read()
        kept = imported(text) | (set(declared(path)) if is_hand(path) else set())
        files[path] = (text, antt, kept)
    for path in glob.glob("crates/*/src/**/*.rt", recursive=True):
        text = open(path).read()
        files[path] = (text, rust, imported(text))
    for path in glob.glob("crates/*/must-fail/*.edit"):
        files[path] = (open(path).read(), rust, set())
    for path in ["README.md"] + glob.glob("docs/*.md"):
        files[path] = (open(path).read(), in_quotes, set())
    if "--list" in sys.argv:
        for name in sorted(new):
            print(name, new[name])
        by_new = collections.defaultdict(set)
        for name in new:
            by_new[new[name]].add(name)
        for name in kinds:
            if name not in new:
                by_new[name].add(name)
        for name, olds in sorted(by_new.items()):
            if len(olds) > 1:
                print("together:", name, sorted(olds))
        for path, (text, _, kept) in sorted(files.items()):
            if not path.endswith((".antt", ".rt")):
                continue
            words = set(TOKEN.findall("\n".join(re.split(r"\s(?:--|//)\s", line)[0] for line in text.split("\n"))))
            met = [w for w in words if w in new and w not in kept and new[w] in words]
            if met:
                print("meets:", path, met)
        return
    for path, (text, turn, kept) in files.items():
        here = dict(new)
        if turn is in_quotes or path.endswith(".edit"):
            here.update((name, snake(name)) for name in PORTED)
        for folder, some in WITHIN.items():
            if path.startswith(folder):
                here.update(some)
        after = turn(text, here, kept)
        if after != text:
            open(path, "w").write(after)


main()
