"""The rules: how files are read, which reply a line gets, how certificates are tested."""
