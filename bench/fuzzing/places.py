"""The folders of the repository, and what of its own code the cases are made with."""
import os
import sys

TOP = os.path.dirname(os.path.dirname(os.path.dirname(os.path.realpath(__file__))))
for folder in ("tools", os.path.join("bench", "reading")):
    if os.path.join(TOP, folder) not in sys.path:
        sys.path.append(os.path.join(TOP, folder))
