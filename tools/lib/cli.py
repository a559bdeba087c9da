"""Reading a file, writing the output, and the exit status of every tool."""

import argparse
import os
import signal
import sys


class Mistake(Exception):
    """Bad text or usage: exit status 2."""


class Failure(Exception):
    """Anything else that stops a tool, with its exit status."""

    def __init__(self, message, status=1):
        super().__init__(message)
        self.status = status


def parser(description, usage):
    """A parser of a tool's options: none may be shortened, so that a new one never changes what an old word means."""
    layout = argparse.RawDescriptionHelpFormatter
    return argparse.ArgumentParser(description=description, formatter_class=layout, allow_abbrev=False, usage=usage)


def shown(word):
    """A word of the user's in a message: quoted where a character could not be seen, cut where it is long."""
    word = word if len(word) <= 60 else word[:57] + "..."
    return word if word.isprintable() and word.isascii() else ascii(word)


def read_bytes(path):
    try:
        with open(path, "rb") as file:
            return file.read()
    except OSError as e:
        raise Mistake(f"{path}: {e.strerror}") from None


def read_text(path):
    """The file's characters. A byte order mark is skipped; other bytes that are not UTF-8 are a mistake."""
    data = read_bytes(path)
    data = data[3:] if data.startswith(b"\xef\xbb\xbf") else data
    try:
        return data.decode("utf-8")
    except UnicodeDecodeError as e:
        line = data.count(b"\n", 0, e.start) + 1
        raise Mistake(f"{path}, line {line}: the byte {data[e.start]:02x} is not UTF-8") from None


def write(data):
    """Writes bytes or text to standard output; a failed write must not end in status 0."""
    if sys.stdout is None:
        raise Failure("standard output is closed")
    try:
        sys.stdout.buffer.write(data if isinstance(data, bytes) else data.encode())
        sys.stdout.buffer.flush()
    except BrokenPipeError:
        # the reader went away: end as any filter does, by the signal, without a word
        signal.signal(signal.SIGPIPE, signal.SIG_DFL)
        os.kill(os.getpid(), signal.SIGPIPE)
    except OSError as e:
        # what is still buffered would fail again when Python ends
        os.dup2(os.open(os.devnull, os.O_WRONLY), sys.stdout.fileno())
        raise Failure(f"standard output: {e.strerror}") from None


def note(message):
    """A line on standard error. Where that is closed Python has none, and print would take standard output."""
    if sys.stderr is not None:
        print(f"{os.path.basename(sys.argv[0])}: {message}", file=sys.stderr, flush=True)


def guarded(main):
    """Runs a tool: mistakes and failures become one line on standard error and an exit status."""
    try:
        sys.exit(main())
    except Mistake as e:
        note(e)
        sys.exit(2)
    except Failure as e:
        note(e)
        sys.exit(e.status)
    except KeyboardInterrupt:
        sys.exit(130)
