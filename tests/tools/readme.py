"""The README's examples of the tools, byte for byte: each block with a `$` is typed as it stands."""

import re
import shutil

from harness import ROOT, TOOLS, case, holds, same, started

README = (ROOT / "README.md").read_text()
HERE = ("cat ", "tools/")  # the C example needs the archive, which tests/c/run builds


def blocks():
    """Each indented block of the README that has a command, as pairs of command and output."""
    for block in re.findall(r"(?:^    .*\n)+", README, re.MULTILINE):
        text = re.sub(r"^    ", "", block, flags=re.MULTILINE)
        if text.startswith("$ "):
            yield [(part.split("\n", 1)[0], part.split("\n", 1)[1]) for part in re.split(r"^\$ ", text, flags=re.MULTILINE)[1:]]


def type_in(folder, command, expected):
    """`cat FILE` of a file that is not there shows a file to make; any other command is run."""
    shown = re.fullmatch(r"cat (\w+\.\w+)", command)
    if shown and not (folder / shown[1]).exists():
        (folder / shown[1]).write_text(expected)
        return
    ended = started(["bash", "-c", command], folder)
    same(ended.text, expected, f"the output of `{command}`")
    same(ended.err, "", f"the message of `{command}`")
    same(ended.status, 1 if re.search("^ .*  X ", expected, re.MULTILINE) else 0, f"the status of `{command}`")


@case("README: every example")
def examples(folder):
    shutil.copytree(TOOLS, folder / "tools")
    (folder / "docs").mkdir()
    typed = [pair for block in blocks() for pair in block if pair[0].startswith(HERE)]
    holds(sum(command.startswith("tools/") for command, _ in typed) >= 6, "the README has fewer examples than it had")
    for command, expected in typed:
        type_in(folder, command, expected)
    same((folder / "docs/room.svg").read_bytes(), (ROOT / "docs/room.svg").read_bytes(), "docs/room.svg")


@case("README: the picture that it shows is stored")
def picture(folder):
    names = re.findall(r"!\[[^]]*\]\(([^)]*)\)", README)
    same(names, ["docs/room.svg"], "pictures")


@case("README: every letter of a line, with as many fields as the tool reads")
def fields(folder):
    import inspect

    from lib.lines import MEANINGS

    rows = dict(re.findall(r"^\| `([A-Z])([^`]*)` \|", README, re.MULTILINE))
    holds(set(rows) == set(MEANINGS), f"letters {sorted(rows)} where the tool has {sorted(MEANINGS)}")
    for letter, names in rows.items():
        same(len(names.split()), len(inspect.signature(MEANINGS[letter]).parameters) - 1, f"fields of {letter}")
