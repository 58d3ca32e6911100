"""Plain files: what is a pipe or a device is neither opened nor waited for.

    plain(NAME)        a plain file, open for reading its bytes; OSError, with the name, where it can't be opened or is none
    contents(NAME)     its bytes
"""
import errno
import os
import stat

NO_FILE = "it is a pipe or a device, and isn't opened"


def must_be_plain(mode, name):
    if stat.S_ISDIR(mode):
        raise IsADirectoryError(errno.EISDIR, os.strerror(errno.EISDIR), name)
    if not stat.S_ISREG(mode):
        raise OSError(errno.EINVAL, NO_FILE, name)


def plain(name):
    """It is looked at before, since opening a device may do something, and again, since another may stand there by then."""
    must_be_plain(os.stat(name).st_mode, name)
    file = open(os.open(name, os.O_RDONLY | os.O_NONBLOCK | os.O_NOCTTY | os.O_CLOEXEC), "rb")
    try:
        must_be_plain(os.fstat(file.fileno()).st_mode, name)
    except OSError:
        file.close()
        raise
    return file


def contents(name):
    with plain(name) as file:
        return file.read()
