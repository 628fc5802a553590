"""What judges, tries and measures, and what the gate asks of the tree: a package whose programs run at the top, as
`PYTHONPATH=python/lab python3 -m overlayd_lab.trials.faults PROGRAM`."""

import pathlib
import sys

LAB = pathlib.Path(__file__).resolve().parent
TOP = LAB.parents[2]
sys.path[1:1] = [str(TOP / "python" / "src"), str(TOP / "python")]
