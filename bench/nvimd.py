"""The package of this name, which stands in python/."""

import importlib
import os
import sys

TOP = os.path.dirname(os.path.dirname(os.path.abspath(__file__)))

sys.path.insert(0, os.path.join(TOP, "python"))
del sys.modules[__name__]
importlib.import_module(__name__)
