"""Checks a description, as `tvdlg check FILE` does."""
import pathlib
import sys

import tvd

if len(sys.argv) != 2:
    sys.exit("usage: check.py FILE")
told = tvd.check(pathlib.Path(sys.argv[1]).read_bytes())
sys.stdout.buffer.write(told.out)
sys.stderr.buffer.write(told.err)
sys.exit(told.status)
