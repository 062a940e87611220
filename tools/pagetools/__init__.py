"""What tools/compare, tools/tries and tools/picture share: the Python standard library alone."""
