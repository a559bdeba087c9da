#!/usr/bin/env python3
"""respell: the repository's own definitions and lemmas in the spelling of today's Rattle, once, right after port.py.

port.py respells the library's names and some of the repository's own. This script respells the rest, by text, in every .antt and .rt
file below crates/: words in snake case (`nextCommand` is `next_command`), the fields and constructors that specs/ declares with `_`
and not with `-`, the aliases of modules in upper camel case (`outcome-of` is `OutcomeOf`). Names of functions, fields, constants and
types of src/, and texts of programs, stay. With --list it writes nothing and prints the names, old and new.

Where a new name meets one that stands already, the table BY_HAND has another; the script stops where one is not there."""
import os
import re
import sys

ROOT = os.path.join(os.path.dirname(os.path.abspath(__file__)), "..", "crates")
NAME = r'[^\s(){}.;,@"«»`]+'
TOKEN = re.compile(NAME)
DECLARED = re.compile(r"(?m)^(\s*)((?:(?:abbrev|unfoldable|pub|data|record) )*)(%s)((?: \{[^{}\n]*\}| \([^()\n]*\))*) :(?=\s)" % NAME)
ALIAS = re.compile(r"(?m)^\s*(?:ghost )?use [\w.·+-]+ as ([\w-]+)\s*;?$")
# where the new spelling would meet another name
BY_HAND = {
    "next-theta": "later_theta",
    "weight-code": "code_of_weight",
    "weight-value": "value_of_weight",
    "variance-code": "code_of_variance",
    "variance-value": "value_of_variance",
}
# lemmas that port.py gave the name that a definition now has, each in the one file that knows it
LEMMAS = {
    "in_place/proofs/InPlaceSteps.antt": {"index_in": "index_in-ok"},
    "relative_errors/proofs/ErrorKinds.antt": {"batch_run": "batch_run-relative"},
    "snapshot/proofs/OffsetLaws.antt": {"position_at": "position_at-located"},
}
# functions of src/ that have the name of the definition that their contract cites, and modules under their own name
MIRRORS = re.compile(r"\bfn (\w+)|\blet (due_code)\b")
# goals and steps that Rattle names: they are not the repository's own
MADE = re.compile(r"^(h[A-Z]'?$|returns|loop|invariant|decreases|in|if|then|else|match|overflow|cast|add|sub|mul|div|rem|neg|bounds|slice|part|element|shared|enum|struct|fields|prove|nonzero|and|or|not)-")


def files():
    for folder, dirs, names in os.walk(ROOT):
        dirs[:] = sorted(d for d in dirs if d != "out")
        for name in sorted(names):
            if name.endswith((".antt", ".rt")):
                yield os.path.join(folder, name)


def read(path):
    with open(path, encoding="utf-8") as file:
        return file.read()


def snake(name):
    return re.sub(r"(?<=[a-z0-9])([A-Z])", lambda m: "_" + m[1].lower(), name)


def is_camel(part):
    return re.match(r"^[a-z][a-z0-9_]*[A-Z]", part) is not None


def respelled(name):
    """A name by its parts between dashes: a part that begins like a word is in snake case, a type's name stays."""
    return "-".join(snake(part) if is_camel(part) else part for part in name.split("-"))


def in_specs(path):
    return "/specs/" in path.split("/crates/")[-1]


def table(texts):
    names = {}
    for path, text in texts.items():
        if not path.endswith(".antt"):
            continue
        shared = re.search(r"/proofs/\w+\.antt$", path) is not None
        for m in DECLARED.finditer(text):
            name = m[3]
            if not re.match(r"^[a-z]", name):
                continue
            new = respelled(name)
            if in_specs(path) and "-" in name and re.match(r"^[\w-]+$", name):
                new = new.replace("-", "_")
            if new != name and not (MADE.match(name) and (not (in_specs(path) or shared) or name[0] == "h")):
                names[name] = new
    for path, text in texts.items():
        for m in ALIAS.finditer(text):
            if "-" in m[1]:
                names[m[1]] = "".join(part[:1].upper() + part[1:] for part in m[1].split("-"))
            elif is_camel(m[1]):
                names.setdefault(m[1], respelled(m[1]))
    names.update({name: new for name, new in BY_HAND.items() if name in names})
    return names


def tokens(text):
    return set(TOKEN.findall(text))


def meets(names, texts):
    """Names that stand in a file already, where a name there would now be spelled so."""
    found = []
    mirrors = {"ActionLaws"}
    for path, text in texts.items():
        if path.endswith(".rt"):
            mirrors.update(name for pair in MIRRORS.findall(text) for name in pair)
    for path, text in texts.items():
        words = tokens(text)
        for name, new in names.items():
            if name in words and new in words and new not in mirrors and new not in LEMMAS.get(os.path.relpath(path, ROOT), {}):
                found.append("%s: %s is %s, which stands there" % (os.path.relpath(path, ROOT), name, new))
    by_new = {}
    for name, new in names.items():
        by_new.setdefault(new, set()).add(name)
    found += ["%s are all %s" % (", ".join(sorted(old)), new) for new, old in by_new.items() if len(old) > 1]
    return found


def turned(path, text, names):
    names = names | LEMMAS.get(os.path.relpath(path, ROOT), {})

    def line(part):
        mark = "//" if path.endswith(".rt") else "--"
        code, sep, comment = part.partition(mark + " ") if re.search(r"(^|\s)%s " % mark, part) else (part, "", "")
        code = TOKEN.sub(lambda m: names.get(m[0], m[0]), code)
        comment = TOKEN.sub(lambda m: names[m[0]] if m[0] in names and "-" not in m[0] else m[0], comment)
        return code + sep + comment

    return "\n".join(line(part) for part in text.split("\n"))


def main():
    texts = {path: read(path) for path in files()}
    names = table(texts)
    if sys.argv[1:] == ["--list"]:
        for name in sorted(names):
            print("%s\t%s" % (name, names[name]))
        return 0
    found = meets(names, texts)
    if found:
        print("\n".join(found))
        return 1
    count = 0
    for path, text in texts.items():
        new = turned(path, text, names)
        if new != text:
            count += 1
            with open(path, "w", encoding="utf-8") as file:
                file.write(new)
    print("respell: %d names in %d files" % (len(names), count))
    return 0


if __name__ == "__main__":
    sys.exit(main())
