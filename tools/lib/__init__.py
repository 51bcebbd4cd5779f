"""What the programs in this folder share: reading what `xdg` prints, laying out arcs, drawing them."""
import sys

if sys.version_info < (3, 10):
    sys.exit("this tool needs Python 3.10 or later")
