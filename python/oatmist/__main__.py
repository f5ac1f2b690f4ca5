"""python3 -m oatmist: the command."""
import sys

from .cli import main

sys.exit(main())
