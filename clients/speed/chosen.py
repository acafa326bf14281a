"""Time of interning the lines of a file, in nanoseconds of processor time for each. usage: chosen.py FILE"""

import sys
import time
from pathlib import Path

from string_cache import Interner

lines = Path(sys.argv[1]).read_text(encoding="utf-8").splitlines()
begin = time.process_time_ns()
names = Interner()
for line in lines:
    names.intern(line)
print(f"Python {sys.argv[1]} {(time.process_time_ns() - begin) / len(lines):.1f}")
sys.exit(len(names) != len(lines))
