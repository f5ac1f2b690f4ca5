"""What ./oatmist starts."""
import os
import signal
import sys

if os.environ.get("OATMIST_INTERRUPTS"):
    signal.signal(signal.SIGINT, signal.SIG_DFL)  # until the command itself takes care of it
if sys.version_info < (3, 8):
    sys.stderr.write("oatmist: this needs Python 3.8 or newer\n")
    sys.exit(2)

from oatmist.cli import main

sys.exit(main())
