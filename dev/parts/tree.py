"""The checkout that the scripts of dev/ are of. Plain Python, NOT PROVED; it trusts nothing but the file system."""

import os
import pathlib

ROOT = pathlib.Path(os.path.realpath(__file__)).parents[2]
TOP = str(ROOT)
