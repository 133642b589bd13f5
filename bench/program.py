"""The program that scripts run: the one that BB names, or that was built here last, or the kept one. A script that asks for it
and is called with --help prints its head."""
import os
import sys

TOP = os.path.dirname(os.path.dirname(os.path.abspath(__file__)))
BUILT = os.path.join(TOP, "crates", "bb", "out", "bb")
PROGRAM = os.environ.get("BB") or (BUILT if os.access(BUILT, os.X_OK) else os.path.join(TOP, "dist", "bb-linux-x86_64"))

if sys.argv[1:] in (["--help"], ["-h"]) and sys.modules["__main__"].__doc__:
    print(sys.modules["__main__"].__doc__.strip())
    sys.exit()
