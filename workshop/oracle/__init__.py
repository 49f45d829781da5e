"""An independent model of bundles and timelines, which tests hold the program against.

Nothing that a user starts is made of it.
"""
