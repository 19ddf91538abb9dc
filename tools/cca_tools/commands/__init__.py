"""The commands, a module each. Each has `main(argv)`, which returns the status."""
