"""Programs for virtualised stream pipelines, from Python: thin code around the programs piperench and pipelens.

>>> from piperench import Program
>>> Program("input x:8; output y:10 = x + x@1 + x@2 + x@3;").run([1, 2, 3]).rows()
[(1,), (3,), (6,)]
"""

from . import make, plot, signals
from ._program import Checkpoint, Configuration, Program, share
from ._refused import Finding, Place, Refused
from ._reports import Cost, Speed, Stage, Trace
from ._streams import Port, Streams

__all__ = [
    "Checkpoint",
    "Configuration",
    "Cost",
    "Finding",
    "Place",
    "Port",
    "Program",
    "Refused",
    "Speed",
    "Stage",
    "Streams",
    "Trace",
    "make",
    "plot",
    "share",
    "signals",
]
__version__ = "1.0"
