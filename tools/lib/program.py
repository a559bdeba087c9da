"""The program forecast-run: built where it is not, and played."""

import os
import pathlib
import shutil
import subprocess
import sys
from typing import NamedTuple

from lib import commands
from lib.cli import Failure, note

ROOT = pathlib.Path(__file__).resolve().parents[2]
BUILT = ROOT / "target/bin/forecast_run"
CRATE = ROOT / "crates/forecast_run"
MADE = CRATE / "out/forecast_run"  # what rt builds
NOT_BUILT = 3  # the exit status where there is no program


def is_current():
    """Whether the built program is newer than every file that it could come from."""
    if not BUILT.exists():
        return False
    built = BUILT.stat().st_mtime
    for folder, folders, names in os.walk(ROOT / "crates"):
        if "out" in folders:
            folders.remove("out")  # what rt makes
        if any((pathlib.Path(folder) / name).lstat().st_mtime > built for name in names):
            return False
    return True


def build():
    if BUILT.exists():
        note("crates/ changed after target/bin/forecast_run was built: checking it again")
    else:
        note("building target/bin/forecast_run: its crates are proved first, some 11 minutes on 4 cores, once")
    try:
        # rt plays what it builds: the empty stream, which prints nothing
        ended = subprocess.run(["rt", "run"], cwd=CRATE, stdout=sys.stderr, stdin=subprocess.DEVNULL)
    except FileNotFoundError:
        raise Failure("rt is not on the path: the Rattle kit builds target/bin/forecast_run", NOT_BUILT) from None
    if ended.returncode != 0 or not MADE.exists():
        raise Failure("target/bin/forecast_run could not be built", NOT_BUILT)
    BUILT.parent.mkdir(parents=True, exist_ok=True)
    taken = BUILT.with_suffix(".new")
    shutil.copy(MADE, taken)
    os.replace(taken, BUILT)


def path():
    """The program to play: the environment's FORECAST_RUN, which is taken as it is, or the built one."""
    chosen = os.environ.get("FORECAST_RUN")
    if chosen:
        return chosen
    if not is_current():
        build()
    return str(BUILT)


def output(program, **how):
    """What the program writes. How it ends is told by its last line; only a crash is told here."""
    try:
        ended = subprocess.run([program], stdout=subprocess.PIPE, **how)
    except OSError as e:
        raise Failure(f"{program}: {e.strerror}", NOT_BUILT) from None
    if ended.returncode != 0:
        note(f"{program} ended with status {ended.returncode}")
    return ended.stdout


def lines(program, stream):
    return output(program, input=stream).decode("ascii", "replace").splitlines()


class Played(NamedTuple):
    """Items played in as many runs as they need."""

    answers: list  # the line of each item that was taken and has one
    last: str  # N, X with the offset in all the items' bytes, or "" where the output was cut off


def is_silent(item):
    """Whether an item is a command without a line."""
    return item[0] in commands.COMMANDS and commands.COMMANDS[item[0]].silent


def printed(items):
    """How many lines the items have."""
    return sum(not is_silent(item) for item in items)


def names_kept(items):
    """The names under which the items keep a state; a byte that is none is refused, and ends the run."""
    return {item[1] for item in items if item[0] == commands.KEEP and item[1] < commands.NAMES}


def closing(names):
    """The items that save the state that stands, then each state that a name holds."""
    save = commands.encode(commands.SAVE)
    return [save] + [item for name in names for item in (commands.encode(commands.BACK, name), save)]


def opening(names, saved):
    """The items that open what the closing ones saved."""
    kept = [item for name, group in zip(names, saved[1:]) for item in (group, commands.encode(commands.KEEP, name))]
    return kept + saved[:1]


def taken_together(items, at, room):
    """How many items from `at` on fit into the room; one at least, where there is any."""
    many = 0
    while at + many < len(items) and len(items[at + many]) <= room:
        room -= len(items[at + many])
        many += 1
    return many or min(1, len(items))


def play(program, items, limit=commands.INPUT_LIMIT):
    """Plays items, each a group or a command, as one run without the input's limit would.

    A run ends in saves of the state and of those that were kept, and the next begins with what it saved: saving and opening
    lose nothing.
    """
    answers, carried, held, at, offset = [], [], set(), 0, 0
    room = limit - len(b"".join(closing(range(commands.NAMES))))
    while True:
        before = b"".join(carried)
        many = taken_together(items, at, room - len(before))
        taken = items[at : at + many]
        more = at + many < len(items)
        held |= names_kept(taken) if more else set()
        asked = closing(sorted(held)) if more else []
        found = lines(program, before + b"".join(taken + asked))[printed(carried) :]
        if found and found[-1].startswith("X "):
            code, where = map(int, found[-1].split()[1:])
            return Played(answers + found[:-1], f"X {code} {offset + where - len(before)}")
        answers += found[: printed(taken)]
        if len(found) != printed(taken + asked) + 1:
            return Played(answers, "")
        if not more:
            return Played(answers, found[-1])
        carried = opening(sorted(held), [bytes.fromhex(line[2:]) for line in found[printed(taken) : -1]])
        at, offset = at + many, offset + len(b"".join(taken))
