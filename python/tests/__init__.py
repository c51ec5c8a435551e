"""The tests of the Python face, over the shared library: tests/python runs them."""
