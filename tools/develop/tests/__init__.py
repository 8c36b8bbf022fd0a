"""Tests of the tools. Expected values were written from docs/, or recorded from other implementations."""
import os
import sys

TOOLS = os.path.dirname(os.path.dirname(os.path.dirname(os.path.realpath(__file__))))
sys.path[1:1] = [os.path.join(TOOLS, it) for it in ("command", "publish")]
