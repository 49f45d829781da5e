"""The front end and the program on real runs of cargo, over the packages of `examples`."""
