"""When tools/run builds: in a copy of the tools with a stand-in for rt that notes each call."""

import os
import pathlib
import sys
import time

from harness import PROGRAM, TOOLS, case, environment, holds, same, started

STAND_IN = f"""#!/bin/sh
echo "$@ in $(basename "$PWD")" >> ../../calls
echo "rt: state proved (1 s)"
if [ -f ../../fail ]; then exit 1; fi
mkdir -p out
cp "{PROGRAM}" out/forecast_run
"""
FIRST = "run: building target/bin/forecast_run: its crates are proved first, some 11 minutes on 4 cores, once\nrt: state proved (1 s)\n"
AGAIN = "run: crates/ changed after target/bin/forecast_run was built: checking it again\nrt: state proved (1 s)\n"


class Copy:
    """A repository with the tools and one source file."""

    def __init__(self, folder):
        self.folder = folder
        started(["cp", "-r", TOOLS, folder / "tools"], folder)
        self.source = folder / "crates/forecast_run/src/main.rt"
        self.source.parent.mkdir(parents=True)
        self.source.write_text("")
        os.utime(self.source, (time.time() - 100,) * 2)
        (folder / "bin").mkdir()
        (folder / "bin/rt").write_text(STAND_IN)
        (folder / "bin/rt").chmod(0o755)
        (folder / "day.txt").write_text("model none\nmissing\n")

    def run(self, *words, path=None):
        path = path or f"{self.folder / 'bin'}:{os.environ['PATH']}"
        return started([self.folder / "tools/run", *words], self.folder, env=environment(FORECAST_RUN=None, PATH=path))

    def calls(self):
        noted = self.folder / "calls"
        return noted.read_text().splitlines() if noted.exists() else []

    def built(self):
        return self.folder / "target/bin/forecast_run"


@case("build: a mistake is told before anything is built")
def mistakes_first(folder):
    copy = Copy(folder)
    (folder / "wrong.txt").write_text("model nine\n")
    for words in (["nosuch.txt"], ["wrong.txt"], ["day.txt", "day.txt"]):
        same(copy.run(*words).status, 2, "status")
    same(copy.calls(), [], "calls of rt")


@case("build: once, with progress and the time that it takes")
def once(folder):
    copy = Copy(folder)
    ended = copy.run("day.txt")
    same((ended.status, ended.err), (0, FIRST), "status and message")
    same(copy.calls(), ["run in forecast_run"], "calls of rt")
    again = copy.run("day.txt")
    same((again.status, again.err, again.out), (0, "", ended.out), "a second run")
    same(len(copy.calls()), 1, "calls of rt")


@case("build: again where a source is newer, and not a third time")
def changed(folder):
    copy = Copy(folder)
    copy.run("day.txt")
    os.utime(copy.built(), (time.time() - 50,) * 2)
    os.utime(copy.source, (time.time() - 20,) * 2)
    same((copy.run("day.txt").err, copy.run("day.txt").err), (AGAIN, ""), "messages")
    same(len(copy.calls()), 2, "calls of rt")


@case("build: a program that was deleted comes back")
def deleted(folder):
    copy = Copy(folder)
    copy.run("day.txt")
    copy.built().unlink()
    ended = copy.run("day.txt")
    same((ended.status, ended.err), (0, FIRST), "status and message")


@case("build: a crate that is not proved")
def not_proved(folder):
    copy = Copy(folder)
    (folder / "fail").write_text("")
    ended = copy.run("day.txt")
    same((ended.status, ended.out), (3, b""), "status and output")
    same(ended.err, FIRST + "run: target/bin/forecast_run could not be built\n", "the message")


@case("build: no rt on the path")
def no_rt(folder):
    copy = Copy(folder)
    (folder / "python").mkdir()
    (folder / "python/python3").symlink_to(pathlib.Path(sys.executable).resolve())
    ended = copy.run("day.txt", path=str(folder / "python"))
    same((ended.status, ended.out), (3, b""), "status and output")
    holds(ended.err.endswith("run: rt is not on the path: the Rattle kit builds target/bin/forecast_run\n"), ended.err)
