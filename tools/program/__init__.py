"""What ./certpath and ./rows run: they find, build and start the programs."""
