"""Files that a generator makes and the repository keeps."""
import os

TOP = os.path.dirname(os.path.dirname(os.path.abspath(__file__)))


def path(name):
    return os.path.join(TOP, name)


def read(name):
    with open(path(name), "rb") as source:
        return source.read()


def write(files):
    """Each file's path below the repository, and its bytes."""
    for name, data in files.items():
        with open(path(name), "wb") as out:
            out.write(data)
