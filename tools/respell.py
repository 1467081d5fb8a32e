#!/usr/bin/env python3
"""Spells this repository's own definitions, lemmas and fields in snake case, as its library's words are spelled.

usage: tools/respell.py [--check]

Run it once, at the top, on what the kit's port.py wrote (docs/PORT.md says on which commit). The names are those that the files of
specs/ and the lemma files of proofs/ declare: `wordAt` becomes `word_at` and `bits-lt` becomes `bits_lt`. Types, modules, functions of
src/ and what Rattle makes keep their names. In a Proof.antt only a name that the file imports or declares as a lemma is turned, as the others are
Rattle's. It also turns the names in clauses, must-fail edits, pages and test scripts. It stops where two names would fall together.
--check writes nothing and prints the table.
"""
import os
import re
import sys

NAME = r"[^\s(){}.;,@\"«»]+"
LINE = r"--[^\n]*"
DECLARED = re.compile(r"(?m)^ *((?:abbrev |unfoldable |opaque |pub )*)(" + NAME + r")((?: \{[^{}\n]*\}| \([^()\n]*\))*) :(?= |$)")
USE = re.compile(r"(?m)^ *(?:pub )?(?:ghost )?use ([^\s{;]+?)(?:\.\{([^}]*)\})?(?: as (\S+?))?;?$", re.S)
OWN = set("numbers fields instructions runs lines examples worked taken_apart job replay".split())
# Fields of a record beside functions of the same words.
CHOSEN = {"span-r": "spans_r", "span-s": "spans_s"}
# Locals: one that port.py had taken for a word of the library, and three of two words.
LOCALS = {"is_IsWord": "is_word", "isLong": "is_long", "endsKind": "ends_kind", "is-decoded": "is_decoded", "not-items": "not_items"}
# Several constructors of one type, or variables, in a line.
SEVERAL = re.compile(r"(?m)^ +((?:[a-z]" + NAME[:-1] + r"* ){2,}): ")
# What port.py had respelled already, for the pages alone.
BEFORE = """
a-byte add-at add-done add-low add-r addend-small after-items all-codes all-pass and-assoc and-both and-first as-long as-wide at-length
at-most at-once atB atExit atS bit-is bitOf bits-is bitsAt bitsOf both-false both-some both-true by-length byteAt byteOf caseOf cast-t
choose-spec chunk-of clear-spec codeIn codeOf copy-spec count-spec countOf counted-spec cutAt digit-lt down-is each-holds end-whole endOf
enum-told exponent-small fetch-spec field-lt fieldAt fieldOf fieldsAt fieldsOf fill-spec find-spec finish-spec flagsOf flip-is formatOf
fresh-keeps from-start get-left goes-on half-is halfOf head-more held-keeps heldAt high-half holds-of in-order inParts inTurn index-is
itemAt items-left itemsIn itemsOf kept-more kept-on kept-same kept-there kindOf laneOf lanesOf left-is leftAt length-whole lengthOf lent-is
lent-says lentAt let-by lineOf listedOf load-aligned load-inside loaded-word low-byte low-half made-at made-of mag-down mag-up makesAt
maskOf maskR minus-is moveOf mul-at mul-low namedOf no-bits no-items no-word none-done none-filled none-made none-named none-passes
none-read not-listed not-made not-wide nothing-lent nothing-read number-fits numberOf ofBits one-bit one-each one-lent one-more one-number
one-place one-shl only-one or-assoc other-way over-none partsOf past-the-end pastAt pastOf picks-up piece-is placeOf planOf put-refused
put-right rAt read-spec refusal-is resultAt resultOf room-for row-of rowIn rowOf run-by run-ends run-of run-sound run-spec saidOf same-code
same-half same-length same-operands same-spec same-test says-any second-empty seenAt set-apart shapeOf shiftOf shiftedBy shortOf sideBySide
signed-high signed-low some-bits source-clear source-is sourceOf spreadOf start-spec stateOf step-keeps step-spec steps-of stepsOf store-lt
stored-is stored-same storedAt stride-on sub-held sub-low sub-part sum-fits sum-is sumOf tail-more tailAt taken-is takenOf targetOf test-of
to-word toC turned-none up-is value-same valueAt weave-turn wholeAt wholeOf widthAt widthBy widthOf within-of wordAt zeroOf
""".split()
KEYWORDS = set("abbrev as at data elim else if import in let module open opaque pub record ruleset syntax then type unfolding unfoldable use where with".split())


def snake(name):
    words = re.sub(r"(?<=[a-zA-Z0-9])[A-Z]", lambda m: "_" + m[0].lower(), name)
    return words.replace("-", "_")


def files(ends, top="crates"):
    for folder, dirs, names in os.walk(top):
        dirs[:] = sorted(d for d in dirs if d not in ("out", "target", ".git"))
        for f in sorted(names):
            if f.endswith(ends):
                yield os.path.join(folder, f)


def read(path):
    with open(path, encoding="utf-8") as f:
        return f.read()


def bare(text):
    return re.sub(LINE, "", text)


def own_path(path):
    steps = path.split(".")
    return steps[0] == "Rattle" and len(steps) > 1 and steps[1] in OWN


def of_rattle(path):
    """Whether the module is one that Rattle makes of a function, as its Tie or Statement."""
    return re.search(r"\.(Tie|Statement|Goals|Given|Met|Symbol|Key|Code|TheLaws|TheVariants|declared|contracts)\b", path) is not None


def imports(text):
    """Each name that a file brings in: name, module."""
    for m in USE.finditer(bare(text)):
        for n in (m[2] or "").replace("\n", " ").split(","):
            n = n.strip().split(" as ")[0].strip()
            if n:
                yield n, m[1]


def is_proof(path):
    return os.path.basename(path) in ("Proof.antt", "Answers.antt", "Invariants.antt")


def table():
    """Each name and its new one. A lemma that would meet another name gets the ending _lem."""
    names, taken = set(), set()
    for path in files(".antt"):
        text = read(path)
        taken |= {n for n, at in imports(text) if not own_path(at)}
        if not is_proof(path):
            names |= {m[2] for m in DECLARED.finditer(bare(text)) if m[2][0].islower()}
            names |= {n for m in SEVERAL.finditer(bare(text)) for n in m[1].split()}
    taken |= {n for n in names if snake(n) == n} | {snake(n) for n in names if "-" not in n}
    new = {n: snake(n) for n in names if snake(n) != n}
    new = {k: v + "_lem" if "-" in k and v in taken else v for k, v in new.items()}
    return new | {k: v for k, v in CHOSEN.items() if k in new} | LOCALS


def turned(text, new, comments=True):
    def one(m):
        return new.get(m[0], m[0])

    if comments:
        return re.sub(NAME, one, text)
    return re.sub(r"(--[^\n]*)|(" + NAME + ")", lambda m: m[0] if m[1] else new.get(m[0], m[0]), text)


def of_file(path, text, new):
    """The part of the table that holds in one .antt file."""
    theirs = {n for n, at in imports(text) if not own_path(at) or of_rattle(at)}
    part = {k: v for k, v in new.items() if k not in theirs}
    if not is_proof(path):
        return part
    mine = {n for n, at in imports(text) if own_path(at) and not of_rattle(at)}
    lemmas = {}
    for m in DECLARED.finditer(bare(text)) if os.path.basename(path) == "Proof.antt" else ():
        rest = bare(text)[m.end() :].split("\n", 1)[0]
        if m[2][0].islower() and "tie." not in rest.split("→")[-1] and not m[2].endswith("-spec") and snake(m[2]) != m[2]:
            lemmas[m[2]] = snake(m[2])
    return {k: v for k, v in part.items() if k in mine or k in FIELDS} | lemmas


def clash(new):
    bad = []
    seen = {}
    for k, v in new.items():
        if v in seen:
            bad.append(f"{k} and {seen[v]} would both be {v}")
        seen[v] = k
        if v in KEYWORDS:
            bad.append(f"{k} would be the keyword {v}")
    for path in files(".antt"):
        text = bare(read(path))
        tokens = set(re.findall(r"(?<![^\s(){};,])" + NAME, re.sub(r"(?m)^ *(pub )?use [^{\n]*", "", text)))
        part = of_file(path, read(path), new)
        for k, v in part.items():
            if k in tokens and v in tokens:
                bad.append(f"{path}: {k} meets {v}")
    for path in files(".rt"):
        text = read(path)
        tokens = set(re.findall(NAME, text))
        variables = set(re.findall(r"\blet (?:mut )?(\w+)", text)) | set(re.findall(r"(\w+): ", text))
        for k, v in new.items():
            if k in tokens and v in variables:
                bad.append(f"{path}: look: {k} is used, and {v} is a variable")
    return bad


def in_code(text, new):
    """Turns a .rt file: names in ghost items and clauses, and those that cannot be Rust's."""
    parts = re.split(r"(//[^\n]*|\"(?:[^\"\\\n]|\\.)*\")", text)
    for i in range(0, len(parts), 2):
        parts[i] = re.sub(r"(?<![\w'.:-])[a-z][\w'-]*(?![\w-])|(?<=\.)[a-z][\w'-]*-[\w'-]*", lambda m: new.get(m[0], m[0]), parts[i])
    for i in range(1, len(parts), 2):
        if parts[i].startswith("//"):
            parts[i] = in_prose(parts[i], new | {n: snake(n) for n in BEFORE})
    return "".join(parts)


def in_prose(text, new):
    """Turns a comment or a page: a name of two capitalised words anywhere, a name with a dash in backquotes or behind a module's name."""
    text = re.sub(r"(?<![\w./-])[a-z][\w']*[A-Z][\w']*(?![\w-])|(?<=[a-z]\.)[a-z]\w*[A-Z]\w*", lambda m: new.get(m[0], m[0]), text)
    return re.sub(r"`([^`\n]+)`", lambda m: "`" + re.sub(NAME, lambda n: new.get(n[0], n[0]), m[1]) + "`", text)


FIELDS = set()


def main(argv):
    for p in files(".antt"):
        if not is_proof(p):
            FIELDS.update(re.findall(r"(?m)^ +pub (" + NAME + ") :", bare(read(p))))
    new = table()
    bad = clash(new)
    stops = [b for b in bad if "look:" not in b]
    for b in bad:
        print(b)
    if argv == ["--check"]:
        for k in sorted(new):
            print(k, new[k])
        return 1 if stops else 0
    if stops:
        return 1
    pages = new | {n: snake(n) for n in BEFORE}
    written = 0
    for path in list(files((".antt", ".rt", ".edit"))) + [p for d in ("docs", "tests", "peer", "host", "include", ".") for p in PAGES(d)]:
        text = read(path)
        if path.endswith(".antt"):
            part = of_file(path, text, new)
            out = re.sub(r"(--[^\n]*)|(" + NAME + ")", lambda m: in_prose(m[0], pages) if m[1] else part.get(m[0], m[0]), text)
        elif path.endswith(".rt"):
            out = in_code(text, new)
        elif path.endswith(".edit"):
            out = "\n".join(in_code(l, new) if ".rt" in text.split("\nold:")[0] else turned(l, new) if re.match("(old|new):", l) else l for l in text.split("\n"))
        else:
            out = in_prose(text, pages)
        if out != text:
            with open(path, "w", encoding="utf-8") as f:
                f.write(out)
            written += 1
    print(f"respell: {len(new)} names, {written} files")
    return 0


def PAGES(top):
    if top == ".":
        return [p for p in ("README.md",) if os.path.exists(p)]
    out = []
    for p in files((".md", ".py", ".sh"), top) if os.path.isdir(top) else []:
        if "PORT" not in p:
            out.append(p)
    for p in ("tests/book", "tests/believed"):
        if top == "tests" and os.path.exists(p):
            out.append(p)
    return out


if __name__ == "__main__":
    sys.exit(main(sys.argv[1:]))
