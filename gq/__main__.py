"""`python3 -m gq`, for development. What is installed begins in `launcher`."""
import sys

from gq.words import main

sys.exit(main(sys.argv[1:]))
