"""`python3 -m feqyldan.door`."""

import sys

from .command_line import main

if __name__ == "__main__":
    sys.exit(main())
