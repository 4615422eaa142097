#!/usr/bin/env python3
# Brings the definitions and lemmas of the repository to today's spelling: words in snake case, types and modules in camel case. Run once, at the top, after the kit's
# port.py; docs/PORT.md says which commit. Functions of src/, exported names, strings, inputs and outputs keep their names.
#
# - A name in camel case that begins small is written with underscores: `octetAt` is `octet_at`.
# - In the name of a lemma a dash stays where it joins two names (`log-shown`: what `log` is, by `shown`); between other words it becomes an underscore.
# - A lemma that would then have the name of a definition ends in `_lem`.
# In comments and pages only names between backticks are respelled.
import re
from pathlib import Path

ROOT = Path(__file__).resolve().parent.parent
WORD = r"[\w'′⁻¹₀-₉\-]+"

# What the kit's port.py respelled already, as it said: pages, edits and lists of edits are brought to it here.
SAID = """act-run add-at add-kept add-left add-most after-is afterOf all-true andThen answerOf array-back asks-none at-last at-more at-part at-top at-vs back-at
back-last back-more back-start behind-more both-ways by-first by-span callsOf choiceOf chooses-highest chooses-none chosen-by chosen-is chosen-none classOf
closed-none column-again column-fits cons-same counted-is counted-spec counts-of cutAt digit-value endWord enters-cut entryAt entryOf every-more f-meets
filled-more filled-none find-spec first-count first-frame first-spec firstOf found-in frame-is frame-past frameAt frameFor from-more getD-any goes-on groupsOf
head-read headOf into-more isSome kept-read kept-small late-is left-over length-before length-from lengths-differ lessBy linesOf list-back listFrom listOf
look-spec machineCalls map-snoc markOf mul-at mul-next mul-wide new-is new-spec next-of next-start no-end no-size no-start no-value none-of none-passes none-yet
not-late not-some number-in number-same number-short numberOf on-fine one-bit one-more one-of one-only one-state onlyIf order-is pair-spec pass-spec passes-same
placeOf placed-end placedAt put-all put-spec putAt read-back read-below read-more read-next read-spec readingOf ready-on refusal-is refused-none rest-more
rest-read restOf rows-before rowsOf run-is run-out said-of same-false same-length same-outcome same-some same-spec same-start sent-is skips-after so-far
some-same spans-on start-is stays-met step-run step-spec step-stays stopAt sub-low sub-number sub-read sum-more sum-past sumTo take-all-spec tells-all
tells-more times-none told-here told-is top-bit two-steps up-fits upTo whole-back word-room write-done write-spec written-is written-read written-same
written-start writtenOf enum-told start-plain""".split()

# Two lemmas whose names port.py made those of definitions.
APART = {"goes_on": "goes_on_lem", "next_start": "next_start_lem"}

# Words of the library that lemmas are named after.
WORDS = set("add sub mul div mod min max zero suc one pred le lt append nil cons take drop map reverse replicate length cond get set not and or xor if bit_and".split())


def snake(word):
    return re.sub(r"(?<=[a-z0-9'])([A-Z])", lambda m: "_" + m.group(1), word).lower()


def said(name):
    return "_".join(snake(part) for part in name.split("-"))


def lines_of(pattern):
    for path in sorted(ROOT.glob(pattern)):
        if path.name not in ("Proof.antt", "Invariants.antt", "Answers.antt"):
            for line in path.read_text().split("\n"):
                yield path, line


SIGNED = re.compile(r"\s*((?:abbrev |unfoldable |pub )*)(record |data )?(" + WORD + r")(?:\s+[({].*?)?\s+:\s")


def names():
    definitions, lemmas, fields, kit, own = set(WORDS), set(), set(), set(), set()
    for path, line in list(lines_of("crates/*/specs/*.antt")) + list(lines_of("crates/*/proofs/*.antt")):
        if line.lstrip().startswith("--"):
            continue
        brought = re.match(r"\s*use ([^\s{]+)\.\{(.*)\}", line)
        if brought:
            if not re.match(r"Rattle.(%s)\b" % "|".join(p.name for p in (ROOT / "crates").iterdir()), brought.group(1)):
                kit |= {n.split(" as ")[-1].strip() for n in brought.group(2).split(",")}
            continue
        made = SIGNED.match(line)
        if not made:
            continue
        name = made.group(3)
        own.add(name)
        if made.group(2) or "abbrev" in made.group(1) or "unfoldable" in made.group(1) or ("/specs/" in str(path) and "-" not in name):
            definitions.add(name)
        if line.startswith(" ") and "-" in name:
            fields.add(name)
        lemmas.add(name)
    return definitions, lemmas, fields, kit - own


# The parts of a lemma's name, taken together where several make one name, and joined.
def joined(parts, known):
    units = []
    while parts:
        size = next((n for n in range(len(parts), 1, -1) if "_".join(parts[:n]) in known), 1)
        units.append("_".join(parts[:size]))
        parts = parts[size:]
    made = units[0]
    for before, unit in zip(units, units[1:]):
        both = before in known and unit in known
        made += ("-" if both or before[:1].isupper() or unit[:1].isupper() else "_") + unit
    return made


def respellings():
    definitions, lemmas, fields, kit = names()
    functions = {m.group(1) for p in ROOT.glob("crates/*/src/*.rt") for m in re.finditer(r"\bfn (\w+)", p.read_text())}
    known = {snake(d) if d[0].islower() else d for d in definitions if "-" not in d} | functions
    of = dict(APART)
    for name in lemmas | definitions:
        if "-" not in name and name[0].islower() and snake(name) != name:
            of[name] = snake(name)
    for name in lemmas:
        if "-" in name and name not in kit and not re.search(r"\d+$", name.split("-")[0]):
            of[name] = joined([snake(p) if p and p[0].islower() else p for p in name.split("-")], known)
    taken = ((lemmas | definitions) - set(of)) | set(APART.values())
    for name in sorted(set(of) - set(APART), key=lambda n: ("-" in n, n)):
        made = of[name]
        while made in taken and "-" in name:
            made += "_lem"
        if made in taken:
            print(f"falls together: {name}, {made}")
        of[name] = made
        taken.add(made)
    return {n: m for n, m in of.items() if n != m}, fields, kit


def turn(text, of, fields, kit, free):
    def one(m):
        dot, word = m.group(1), m.group(2)
        if word in of and (not dot or word in fields or "-" not in word) and (word not in APART or (free and not dot)):
            return dot + of[word]
        if free and re.fullmatch(r"[a-z][a-z0-9']*(?:[A-Z][a-z0-9']*)+", word) and word not in kit:
            return dot + snake(word)
        return m.group(0)
    return re.sub(r"(\.?)(?<![\w\-'])(" + WORD + r")", one, text)


def turn_ticked(text, of, fields, kit):
    return re.sub(r"`[^`\n]+`", lambda m: turn(m.group(0), of, fields, kit, False), text)


def turn_code(text, comment, of, fields, kit, free):
    made = []
    for line in text.split("\n"):
        at = re.search(r"(?<!\S)" + comment, line)
        cut = at.start() if at else len(line)
        made.append(turn(line[:cut], of, fields, kit, free) + turn_ticked(line[cut:], of, fields, kit))
    return "\n".join(made)


def main():
    of, fields, kit = respellings()
    pages = dict(of)
    for name in SAID:
        pages.setdefault(name, said(name))
    # what port.py made of a name may be respelled once more
    pages.update({n: of[said(n)] for n in SAID if said(n) in of})
    for path in sorted(ROOT.glob("crates/**/*.antt")):
        text = path.read_text()
        path.write_text(turn_code(text, "--", of, fields, kit, True))
    for path in sorted(ROOT.glob("crates/*/src/*.rt")):
        text = path.read_text()
        path.write_text(turn_code(text, "//", of, fields, kit, False))
    for path in sorted(ROOT.glob("crates/*/must-fail/*.edit")) + sorted(ROOT.glob("tests/wrong/*.edits")):
        made = []
        for line in path.read_text().split("\n"):
            if re.match(r"(old|new): ", line):
                line = line[:5] + turn(line[5:], pages, fields, kit, True)
            made.append(line if line.startswith("file:") else turn_ticked(line, pages, fields, kit))
        path.write_text("\n".join(made))
    for path in [ROOT / "README.md"] + sorted(ROOT.glob("docs/**/*.md")):
        path.write_text(turn_ticked(path.read_text(), pages, fields, kit))
    (ROOT / "tools" / "respelled.txt").write_text("".join(f"{n} {m}\n" for n, m in sorted(pages.items())))
    print(f"{len(of)} names respelled")


main()
