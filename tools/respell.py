#!/usr/bin/env python3
"""Brings the repository's own definitions and lemmas to one spelling: words in snake case, types and modules in camel case.

usage: python3 tools/respell.py     once, at the top, over crates/ (its .rt and .antt files and must-fail edits), README.md and docs/

`newSet` becomes `new_set`, and `fill-done` becomes `fill_done`. Where a definition and a lemma would fall together, the lemma takes `_lem` behind its name
(`new-set`, the lemma on `newSet`, becomes `new_set_lem`). Functions of src/, exported names, strings, inputs and outputs keep their names. A name that a file
imports from a library is the library's and stays.
"""
import collections
import os
import re
import sys

SIGNATURE = re.compile(r"^\s*(?:abbrev |unfoldable |pub |data |record )*((?:[^\s(){}:,;.⌜]+ )*[^\s(){}:,;.⌜]+)\s+:(?:\s|$)")
EDGE = r"\s(){}\[\],;:.«»`⌜⌝"
OUTER = {"told_back": "told_back_lem", "keep_one": "keep_one_lem", "keep_all": "keep_all_lem", "one_more": "one_more_lem", "plain_then": "plain_then_lem"}


# names that the kit's own script had turned already, in specs/ and proofs/ but not in the must-fail edits
PORTED = """
add-at adds-none after-is afterOf alike-size all-append all-done all-from all-join all-laid all-whole and-left and-no and-right andThen answerOf
answers-one any-flag asked-is asks-none at-once at-place back-is before-here before-more before-split between-cons bitsOf block-read blockOf
blocks-more body-clean bodyOf by-append by-le byte-left bytes-drop bytes-left bytesOf calls-are caseOf codeOf coreOf cut-off cut-short dataOf end-is
ended-is ends-by every-append field-laws fill-done fill-is fill-more fill-none filled-more filled-none fine-back first-good first-of firstOf
fits-after fits-both flag-one flag-same formOf found-as found-at found-first found-none found-part found-some framed-is from-last from-le front-length
gather-none give-spec given-by gives-as gives-none goes-on good-more headOf held-back held-by held-more held-none held-of held-whole heldOf imageOf
in-order in-within isNone itemOf itemsIn itemsOf keep-all keep-one kept-fine kept-here kindOf last-has last-none lineOf list-back liveAfter load-from
load-is loadOf low-bits low-part machineOf more-left more-no more-yes move-down-spec move-same none-is none-kept none-left none-said none-true
none-written not-good not-own not-sound number-is number-lt numberOf one-list one-more one-of-two one-piece oneOf open-more or-left or-right out-stays
over-first over-zeros pair-ends pair-spec pairOf pasted-length pick-gives pick-good pick-spec piece-back plain-then put-all put-one put-spec put-whole
quiet-pair read-one read-whole readOf records-is refusal-is remainder-is replace-spec rest-end rest-more rest-part restOf row-one rowOf run-spec
said-in same-good same-item same-length same-more same-not same-refl same-true says-so second-is seen-none set-more set-past size-is sound-back
start-spec startOf starts-by starts-more stateOf stay-all step-after step-spec stepOf store-is store-length store-long storeOf stored-back sum-both
sum-comm sum-twice sum-zeros symbolOf tablesOf tag-back tag-is take-min take-spec taken-is taken-more takenOf three-back to-last told-back too-long
too-short top-set two-ends two-good two-is two-none upTo value-there value-written walked-all walked-as walked-more walked-none walked-same was-read
whole-is whole-run within-more within-none writes-reads written-read xor-assoc xor-comm zero-more
""".split()


def files(ending):
    for folder, dirs, names in os.walk("crates"):
        dirs[:] = sorted(d for d in dirs if d != "out")
        for name in sorted(names):
            if name.endswith(ending):
                yield os.path.join(folder, name)


def read(path):
    with open(path, encoding="utf-8") as f:
        return f.read()


def snake(name):
    name = name.replace("-", "_").replace("′", "'")
    name = re.sub(r"(?<=[a-z0-9])([A-Z])", lambda m: "_" + m.group(1).lower(), name)
    return name[0].lower() + name[1:]


def odd(name):
    return re.match(r"[A-Za-z]", name) and ("-" in name or (name[0].islower() and re.search(r"[A-Z]", name)))


def own_names():
    """The names that specs/ and the lemma files define, each with the files that do."""
    own = collections.defaultdict(set)
    for path in files(".antt"):
        if re.search(r"/proofs/.+/", path):
            continue
        for line in read(path).splitlines():
            if line.lstrip().startswith("--") or line.startswith("use "):
                continue
            m = SIGNATURE.match(line)
            if m:
                for name in m.group(1).split():
                    own[name].add(path)
    return own


def turned(own):
    """What each odd name becomes."""
    to = {}
    taken = collections.defaultdict(set)
    for name in own:
        taken[snake(name) if odd(name) else name].add(name)
    for name in own:
        if not odd(name):
            continue
        new = snake(name)
        others = {n for n in taken[new] if n != name}
        if others and "-" in name:
            new += "_lem"
        to[name] = new
    return to


def library_imports(text):
    """The names that a file takes from a library and not from a crate of this repository."""
    got = set()
    for m in re.finditer(r"^\s*(?:ghost )?use ([\w.◌·]+)\.\{([^}]*)\}", text, re.M):
        if not (m.group(1).startswith("Rattle.") and m.group(1).split(".")[1] in CRATES):
            got |= {w.strip().split(" as ")[0] for w in m.group(2).split(",")}
    return got


def replaced(text, to):
    if not to:
        return text
    names = sorted(to, key=len, reverse=True)
    pattern = re.compile(r"(?<![^" + EDGE + r"λ←\"])(" + "|".join(re.escape(n) for n in names) + r")(?![^" + EDGE + r"\"])")
    return pattern.sub(lambda m: to[m.group(1)], text)


def split_comment(line, mark):
    at = line.find(mark)
    return (line, "") if at < 0 else (line[:at], line[at:])


def in_ticks(text, to):
    return re.sub(r"`[^`\n]*`", lambda m: replaced(m.group(0), to), text)


def turn_lines(text, mark, to):
    out = []
    for line in text.split("\n"):
        code, comment = split_comment(line, mark)
        out.append(replaced(code, to) + in_ticks(comment, {n: snake(n) for n in PORTED} | to))
    return "\n".join(out)


def main():
    global CRATES
    CRATES = set(os.listdir("crates"))
    own = own_names()
    to = turned(own)
    lemmas = {n: new for n, new in OUTER.items() if n in own}
    seen = collections.Counter()
    for path in list(files(".antt")):
        text = read(path)
        skip = library_imports(text)
        names = {n: new for n, new in to.items() if n not in skip}
        for n, new in lemmas.items():
            if "/proofs/" in path and n not in skip and brings(path, text, n, own):
                names[n] = new
        new = turn_lines(text, "--", names)
        if new != text:
            seen["antt"] += 1
            write(path, new)
    for path in list(files(".rt")):
        text = read(path)
        skip = library_imports(text)
        new = turn_lines(text, "//", {n: v for n, v in to.items() if n not in skip})
        if new != text:
            seen["rt"] += 1
            write(path, new)
    for path in list(files(".edit")):
        text = read(path)
        new = turn_lines(plain(text), "\0", dict({n: snake(n) for n in PORTED}, getD="get_or") | to)
        if new != text:
            seen["edit"] += 1
            write(path, new)
    for path in ["README.md"] + [os.path.join("docs", n) for n in sorted(os.listdir("docs")) if n.endswith(".md") and not n.startswith("PORT")]:
        text = read(path)
        new = in_ticks(text, {n: snake(n) for n in PORTED} | to)
        if new != text:
            seen["page"] += 1
            write(path, new)
    with open("docs/PORT-NAMES.md", "w", encoding="utf-8") as f:
        f.write("# Names of definitions and lemmas, before and after, crate by crate\n")
        crate = collections.defaultdict(list)
        for name in list(to) + list(lemmas):
            for path in own[name]:
                crate[path.split("/")[1]].append(f"`{name}` → `{to.get(name) or lemmas[name]}`")
        for c in sorted(crate):
            f.write(f"\n## {c}\n\n" + ", ".join(sorted(set(crate[c]))) + "\n")
    print(len(to), "names;", dict(seen), file=sys.stderr)


def plain(text):
    """An edit's text in today's spelling of clauses: entry and exit of a reference, projections, primes."""
    text = re.sub(r"now \(image \.entry\)", "image.old", re.sub(r"now \(image \.exit\)", "image.new", text))
    text = re.sub(r"now \((out|live|loading) \.entry\)", r"\1.old", re.sub(r"now \((out|live|loading) \.exit\)", r"\1.new", text))
    text = re.sub(r"now \((\w+) \.entry\)", r"\1.now", text)
    text = re.sub(r"\((\w+)((?: \.\w+)+)\)", lambda m: m.group(1) + m.group(2).replace(" ", ""), text)
    text = re.sub(r"\((\w+\.(?:now|old|new))\)", r"\1", text)
    return text.replace("′", "'")


def brings(path, text, name, own):
    """Whether the name in this file is the lemma and not the definition: it stands in the file, or is imported from a lemma file."""
    if path in own[name]:
        return True
    for m in re.finditer(r"^use ([\w.]+)\.\{([^}]*)\}", text, re.M):
        if ".proofs." in m.group(1) and name in {w.strip() for w in m.group(2).split(",")}:
            return True
    return False


def write(path, text):
    with open(path, "w", encoding="utf-8") as f:
        f.write(text)


if __name__ == "__main__":
    main()
