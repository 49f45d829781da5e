"""Asks cargo and the test binaries which tests there are, and how each is run by itself."""
