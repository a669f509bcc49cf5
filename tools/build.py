"""Where ./escrow enters what builds, proves and packs the program."""

import sys

if sys.version_info < (3, 8):
    sys.stderr.write("escrow: python3 is older than 3.8, which this needs; structure and check go without it\n")
    sys.exit(125)

from escrow_build.main import begin

begin()
