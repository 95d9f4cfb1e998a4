"""How a call ends that computes nothing, or not all."""

FAILED, WRONG_USE, NO_PROGRAM, INTERRUPTED = 1, 9, 127, 130


class Refused(Exception):
    """The status with which the call ends, and why it does."""
