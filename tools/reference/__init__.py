"""The language once more, in Python: read, checked, run, from its rules and from nothing of the program."""
