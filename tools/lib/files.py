"""Files written all together or not at all."""
import errno
import os
import shutil


def is_plain(path):
    """Whether a file here can be put in place by a new name: not a pipe, a terminal or the like."""
    return os.path.isfile(path) or not os.path.exists(path)


def write_beside(path, data):
    """Writes a file under another name in the same folder, and gives that name."""
    beside = os.path.join(os.path.dirname(path), f".{os.path.basename(path)}.{os.getpid()}.new")
    try:
        with open(beside, "xb") as file:
            file.write(data)
        if os.path.exists(path):
            shutil.copymode(path, beside)
    except BaseException:
        remove(beside)
        raise
    return beside


def remove(path):
    try:
        os.remove(path)
    except FileNotFoundError:
        pass


def put(files):
    """Writes all of (path, bytes), and nothing if one of them cannot be written. A link stays a link."""
    files = [(os.path.realpath(path) if is_plain(path) else path, data) for path, data in files]
    for path, _ in files:
        if os.path.isdir(path):
            raise IsADirectoryError(errno.EISDIR, os.strerror(errno.EISDIR), path)
    written = []
    try:
        for path, data in files:
            if is_plain(path):
                written.append((write_beside(path, data), path))
        for path, data in files:
            if not is_plain(path):
                with open(path, "wb") as file:
                    file.write(data)
        while written:
            os.replace(*written[0])
            written.pop(0)
    finally:
        for beside, _ in written:
            remove(beside)
