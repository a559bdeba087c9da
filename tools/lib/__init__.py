"""What the tools share: numbers, commands, the text, the program and its lines, charts. Python's own library is enough."""

import sys

if sys.version_info < (3, 8):
    sys.exit("Python 3.8 or newer is needed")
