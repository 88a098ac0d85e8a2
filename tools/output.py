"""Writes to standard output, and says so where it cannot."""
import os
import sys


def put(text):
    """Writes a text whole, or ends with status 1."""
    try:
        sys.stdout.buffer.write(text.encode("utf-8", "replace"))
        sys.stdout.buffer.flush()
    except OSError as fault:
        # what is left in the buffer would be tried again when the program ends
        os.dup2(os.open(os.devnull, os.O_WRONLY), 1)
        sys.exit(f"standard output cannot be written: {fault.strerror}")
