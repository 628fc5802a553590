"""The command `overlay` of the package that this file is in, also where that is not on Python's path."""

import pathlib
import sys

if __name__ == "__main__":  # processes that it begins import this file again
    if not __package__:
        sys.path[0] = str(pathlib.Path(__file__).resolve().parents[1])
    from overlayd.cli import main

    main()
