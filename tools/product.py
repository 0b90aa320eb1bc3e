"""Puts the desk's package, coordinator/, on the path of a tool that is started from this folder."""
import os
import sys

sys.path.insert(0, os.path.dirname(os.path.dirname(os.path.abspath(__file__))))
