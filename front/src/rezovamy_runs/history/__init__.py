"""What became of each test over several runs."""
