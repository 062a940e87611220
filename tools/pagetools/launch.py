"""Starts a tool from the command line."""
import os
import sys

READER_STOPPED = 141     # as a shell says of a program that the signal SIGPIPE ended


def launch(main):
    """Ends with the status of a tool. If the reader of its output has stopped, as `head' does, it ends without a word."""
    try:
        status = main(sys.argv[1:])
        sys.stdout.flush()
    except BrokenPipeError:
        os.dup2(os.open(os.devnull, os.O_WRONLY), sys.stdout.fileno())
        status = READER_STOPPED
    sys.exit(status)
