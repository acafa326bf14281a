"""Has Python find the modules that scripts of the test command share: those in folders beside this file, and those of tools/.

A script that is run, in any of these folders, has two lines before it imports such a module, and so can be called from anywhere:

    sys.path.append(str(Path(__file__).resolve().parent.parent))
    import find_modules  # has Python find the next ones

A module that is only imported needs neither. No two modules of the shared folders have one name.
"""

import sys
from pathlib import Path

GATE = Path(__file__).resolve().parent
SHARED = ("bodies", "machine", "pages", "refusals", "users")  # the folders with modules that a script of another one imports

sys.path += [*(str(GATE / name) for name in SHARED), str(GATE.parent / "tools")]
