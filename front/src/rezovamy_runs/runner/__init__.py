"""Runs of cargo: what is run, how far it is, and the session that comes of it."""
