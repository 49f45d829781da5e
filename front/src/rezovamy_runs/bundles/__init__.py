"""What bundles hold: containers, the manifest, the log and the outputs."""
