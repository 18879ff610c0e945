"""`python3 -m amctl.adb`."""
import sys

from amctl.adb import main

sys.exit(main(sys.argv[1:]))
