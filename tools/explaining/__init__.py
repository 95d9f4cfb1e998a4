"""What a person wants to know of a call of the program: beside its reply, from the pages and the language in Python."""
