"""A word of the command line, as `python3 -m cfetbl WORD..` or, by the front command, as `python3 tools/command/cfetbl WORD..`."""
import os
import signal
import sys

# Until `streams.run` takes interrupts, one ends this as the system does it: without a word of Python's.
if signal.getsignal(signal.SIGINT) is signal.default_int_handler:
    signal.signal(signal.SIGINT, signal.SIG_DFL)

# A folder that is called isn't a package yet: the one that it stands in has it, and tblkit.
if not __package__:
    sys.path[0] = os.path.dirname(os.path.dirname(os.path.realpath(__file__)))

from cfetbl.command_line import main

main()
