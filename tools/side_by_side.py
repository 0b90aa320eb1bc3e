#!/usr/bin/env python3
"""The test modules of a folder, each in a process of its own, as many at a time as there are processors.

    side_by_side.py FOLDER

What a module's tests say is printed whole when they end. Exit status: 0 all passed; 1 some did not, or there are none.
"""
import glob
import os
import subprocess
import sys
from concurrent.futures import ThreadPoolExecutor, as_completed


def run(path):
    """Whether the tests of this module passed, and what they said."""
    folder, name = os.path.split(path)
    done = subprocess.run([sys.executable, "-m", "unittest", "discover", "-s", folder, "-p", name],
                          stdin=subprocess.DEVNULL, stdout=subprocess.PIPE, stderr=subprocess.STDOUT, check=False)
    return done.returncode == 0, done.stdout.decode(errors="replace")


def main(folder):
    paths = sorted(glob.glob(os.path.join(glob.escape(folder), "*_test.py")))
    failed = []
    with ThreadPoolExecutor(len(os.sched_getaffinity(0))) as pool:
        begun = {pool.submit(run, path): path for path in paths}
        for ended in as_completed(begun):
            passed, said = ended.result()
            print("%s:\n%s" % (begun[ended], said), flush=True)
            failed += [] if passed else [begun[ended]]
    print("%d test modules of %s, %d failed%s" % (len(paths), folder, len(failed), "".join(" " + path for path in sorted(failed))))
    return 0 if paths and not failed else 1


if __name__ == "__main__":
    if len(sys.argv) != 2:
        sys.exit(__doc__)
    sys.exit(main(sys.argv[1]))
