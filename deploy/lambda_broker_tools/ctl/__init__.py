"""Sets up functions on this machine: `words` are read by `main`, and each command stands in a module of what it does."""
