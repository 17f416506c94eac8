"""The lab's front: what a lab starts around the proved programs. Standard library alone, Python 3.9 or later."""
import sys

if sys.version_info < (3, 9):
    sys.stderr.write("Python 3.9 or later is needed, this is %d.%d\n" % sys.version_info[:2])
    sys.exit(2)
