"""What the four programs of this folder share, and what tests/ takes from here: trees, keys, notes and tiles,
written after the public standards with Python's standard library alone.
"""
