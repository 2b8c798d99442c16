"""The standard streams, where the caller has closed some."""

import fcntl
import os


def take():
    """Takes the descriptors of closed standard streams, so that no file that is opened later gets one of them."""
    for file, mode in ((0, os.O_WRONLY), (1, os.O_RDONLY), (2, os.O_RDONLY)):
        try:
            fcntl.fcntl(file, fcntl.F_GETFD)
        except OSError:
            os.open(os.devnull, mode)
