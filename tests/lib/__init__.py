"""What the scripts of tests/ share; a script of this folder that can be run by itself says so in its head. Trees,
keys, notes and tiles are those of conformance/suite.
"""
import os
import sys

sys.path.append(os.path.realpath(f'{__file__}/../../../conformance'))
