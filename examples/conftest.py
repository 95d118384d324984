"""The fixtures of the package, where it isn't installed, and the programs of this folder."""

import pathlib
import sys

HERE = pathlib.Path(__file__).resolve().parent
sys.path[:0] = [str(folder) for folder in HERE.iterdir() if folder.is_dir()]
pytest_plugins = ["nvimd.plugin"]
