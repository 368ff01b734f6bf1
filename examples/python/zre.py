"""Stands for the package, so that these examples run before it is installed: takes that of this checkout, where it is
one."""
import importlib
import os
import sys

HERE = os.path.dirname(os.path.realpath(__file__))
sys.path = [it for it in sys.path if os.path.realpath(it or os.curdir) != HERE]
sys.path.insert(0, os.path.normpath(os.path.join(HERE, "..", "..", "clients", "python")))
del sys.modules["zre"]
importlib.import_module("zre")
