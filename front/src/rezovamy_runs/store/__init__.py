"""Where recorded runs are."""
