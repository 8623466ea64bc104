"""`python3 -m tablewalk`, the same as the command at the checkout's root."""

import sys

from .command import main

if __name__ == "__main__":
    sys.exit(main())
