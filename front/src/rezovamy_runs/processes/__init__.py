"""Runs tests and other programs, each as a process, and leaves none of them behind."""
