"""Cases of the tools' tests: each runs in a folder of its own, which is removed after it."""

import concurrent.futures
import os
import pathlib
import subprocess
import sys
import tempfile
import time
from typing import NamedTuple

ROOT = pathlib.Path(__file__).resolve().parents[2]
TOOLS = ROOT / "tools"
PROGRAM = ROOT / "target/bin/forecast_run"

sys.path[:0] = [str(TOOLS), str(ROOT / "tests/second")]
CASES = []


class Failed(Exception):
    pass


def case(name):
    """Adds the function as a case; it takes the case's folder."""

    def add(function):
        CASES.append((name, function))
        return function

    return add


def same(found, expected, what="output"):
    if found != expected:
        raise Failed(f"{what} is\n{found!r}\nand should be\n{expected!r}")


def holds(truth, what):
    if not truth:
        raise Failed(what)


class Ended(NamedTuple):
    status: int
    out: bytes
    err: str

    @property
    def text(self):
        return self.out.decode()


def environment(**changes):
    """The built program is named, so that no case builds anything unless it takes the name away."""
    chosen = {**os.environ, "FORECAST_RUN": str(PROGRAM), **changes}
    return {name: value for name, value in chosen.items() if value is not None}


def started(words, folder, env=None, stdin=b"", stdout=subprocess.PIPE, timeout=120):
    how = {"cwd": folder, "env": env or environment(), "input": stdin, "stdout": stdout, "timeout": timeout}
    ended = subprocess.run([str(word) for word in words], stderr=subprocess.PIPE, **how)
    return Ended(ended.returncode, ended.stdout or b"", ended.stderr.decode())


def tool(name, folder, *words, **how):
    """A tool under the Python of the tests, with its own library alone; `shell` starts it by its first line, as a user does."""
    return started([sys.executable, "-S", TOOLS / name, *words], folder, **how)


def shell(command, folder, **how):
    """A bash command with the tools at hand as tools/NAME."""
    link = folder / "tools"
    if not link.exists():
        link.symlink_to(TOOLS)
    return started(["bash", "-c", command], folder, **how)


def play(folder, text, *words, tool_name="run", name="day.txt"):
    """Writes the text and plays it."""
    (folder / name).write_bytes(text if isinstance(text, bytes) else text.encode())
    return tool(tool_name, folder, *words, name)


def old_form(group):
    """A group as it was saved before there was a score: without command 15."""
    return group[:36] + group[61:]


def snapshot_of_tree():
    """Every file outside target/ and .git with its time, to see that none was left or changed."""
    found = {}
    for folder, folders, names in os.walk(ROOT):
        folders[:] = [name for name in folders if not (folder == str(ROOT) and name in ("target", ".git"))]
        for name in names:
            path = os.path.join(folder, name)
            found[path] = os.lstat(path).st_mtime_ns
    return found


def outcome(named):
    """What is wrong with a case, or nothing."""
    name, function = named
    try:
        with tempfile.TemporaryDirectory() as folder:
            function(pathlib.Path(folder))
    except Failed as e:
        return f"FAILED {name}: {e}"
    except Exception as e:
        return f"FAILED {name}: {type(e).__name__}: {e}"
    return None


def run_all(words):
    """Runs every case whose name has one of the words, or all; prints each that fails and the summary. The exit status."""
    chosen = [named for named in CASES if not words or any(word in named[0] for word in words)]
    if not PROGRAM.exists():
        print("tools: target/bin/forecast_run is not there: run `tools/build forecast_run` first")
        return 1
    before, failed, began = snapshot_of_tree(), 0, time.monotonic()
    with concurrent.futures.ThreadPoolExecutor(os.cpu_count() or 1) as workers:
        for wrong in workers.map(outcome, chosen):
            if wrong:
                failed += 1
                print(wrong)
    if snapshot_of_tree() != before:
        failed += 1
        print("FAILED the tree is left as it was")
    print(f"tools: {len(chosen) + 1} cases, {failed} failed ({time.monotonic() - began:.0f} s)")
    return 1 if failed or not chosen else 0
