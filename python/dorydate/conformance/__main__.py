"""python -m dorydate.conformance"""

import sys

from dorydate import ending
from dorydate.conformance.command import main

sys.exit(ending.run("conformance", main))
