"""The rules of docs/, in Python: from the bytes of a source to what every command answers.

Nothing here is shared with the compiler. Each module says which definitions it stands for.
"""

import sys

# Sources nest up to the stated limits, and the walks over them call themselves.
sys.setrecursionlimit(200000)
