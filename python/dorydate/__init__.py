"""Experiments with the ARPANET's packet network, over a program that is proved.

    >>> from dorydate import Network, Replay
    >>> net = Replay(Network.joined("UCLA-SRI", raw=True))

docs/python.md has a tutorial, docs/reference.md each name.
"""

from dorydate.network import BadNetwork, Host, Imp, Line, Network
from dorydate.program import NoProgram, Program
from dorydate.replay import Replay, Stranger
from dorydate.deeds import Deed, Step, Stopped
from dorydate.script import BadLine, Event, Flow, Script, Text
from dorydate.state import State

__all__ = [
    "BadLine",
    "BadNetwork",
    "Deed",
    "Event",
    "Flow",
    "Host",
    "Imp",
    "Line",
    "Network",
    "NoProgram",
    "Program",
    "Replay",
    "Script",
    "State",
    "Step",
    "Stopped",
    "Stranger",
    "Text",
]
