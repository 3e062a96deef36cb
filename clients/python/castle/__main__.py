"""Runs the shell: python3 -m castle FILE."""

import sys

from .cli import main

if __name__ == "__main__":
    sys.exit(main())
