"""Runs the proved programs that `rt` built: executables for x86-64 Linux, which run as they are."""
import os
import shutil
import subprocess

ROOT = os.path.dirname(os.path.dirname(os.path.abspath(__file__)))


def is_installed():
    """Whether this stands without the repository, where tools/install.py put it."""
    return os.path.isdir(os.path.join(ROOT, "programs"))


def folder(name):
    """A crate's folder, where `rt` is run."""
    return os.path.join(ROOT, "crates", name)


def path(name):
    return os.path.join(ROOT, "programs", name) if is_installed() else os.path.join(folder(name), "out", name)


def kit():
    """The kit's folder, as `rt` finds it."""
    found = shutil.which("rt")
    if found is None:
        raise FileNotFoundError("rt, the Rattle kit's command, is not on the path")
    return os.path.dirname(os.path.dirname(os.path.realpath(found)))


def toolchain():
    return os.path.join(kit(), "toolchain")


def command(name, *args):
    return [path(name), *args]


def run(name, data, *args):
    """What a program writes for these bytes on its standard input."""
    done = subprocess.run(command(name, *args), input=data, stdout=subprocess.PIPE, check=True)
    return done.stdout


def run_on_file(name, file):
    """The same for a file that is not held."""
    done = subprocess.run(command(name), stdin=file, stdout=subprocess.PIPE, check=True)
    return done.stdout
