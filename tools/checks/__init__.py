"""Checks of the server. Each is the `main` of a module or package here, and has a command of the
same name in tools/.

They talk to the server through the Python package in clients/python, which needn't be installed.
"""

import os
import sys

HERE = os.path.dirname(os.path.abspath(__file__))
sys.path.insert(0, os.path.join(HERE, "..", "..", "clients", "python"))
