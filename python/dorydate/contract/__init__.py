"""The contract of a host: what it keeps toward its peers, judged from its own log.

    dorydate keeps LOG

`rules` has the rules, `fold` what they mean of a log, `keeps` the verdict. No word of a program's state is in it.
"""

from dorydate.contract.fold import Broken, Known, Own
from dorydate.contract.keeps import Verdict, judge, judged
from dorydate.contract.logs import BadLog, Log, read_log
from dorydate.contract.rules import RULES, Rule

__all__ = ["RULES", "BadLog", "Broken", "Known", "Log", "Own", "Rule", "Verdict", "judge", "judged", "read_log"]
