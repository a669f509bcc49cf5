"""Where ./escrow enters its tools: the first word names one of them."""

import os
import sys

if sys.version_info < (3, 8):
    sys.stderr.write("escrow: python3 is older than 3.8, which this needs; structure and check go without it\n")
    if sys.argv[1:2] == ["explain"] and os.environ.get("ESCROW_PROGRAM"):
        # The program answers all the same, unexplained.
        os.execv(os.environ["ESCROW_PROGRAM"], [os.environ["ESCROW_PROGRAM"]] + sys.argv[2:])
    sys.exit(125)

# What Python makes of the tools is kept where ./escrow says, so that they begin sooner; with no such folder nothing is kept.
if os.environ.get("ESCROW_BYTECODE"):
    sys.pycache_prefix = os.environ["ESCROW_BYTECODE"]
    sys.dont_write_bytecode = False

from escrow_tools.main import begin

begin()
