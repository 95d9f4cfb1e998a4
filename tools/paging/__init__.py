"""The page where a drafter works on a law: what serves it at 127.0.0.1, from the program's own answers."""
