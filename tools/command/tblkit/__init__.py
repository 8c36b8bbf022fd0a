"""What the command line and the checks stand on: sessions, packets, table files and transcripts of cFE Table Services.

Layouts and numbers are those of docs/; what they are called stands in ../names.tsv alone.
"""
import sys

if sys.version_info < (3, 10):
    print("cfetbl: the tools need Python 3.10 or later, and this is %d.%d" % sys.version_info[:2], file=sys.stderr)
    sys.exit(125)
