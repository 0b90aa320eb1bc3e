"""What the kit's prover is called with, over the libraries that `rt ci` or `rt lib` left proved in crates/NAME/out/rlib."""
import os

import product  # noqa: F401
from coordinator import crates, programs


def read(path):
    with open(path, encoding="utf-8") as file:
        return file.read()


class Repository:
    def __init__(self, root):
        self.root, self.kit = root, programs.kit()
        self.crates = crates.listed(read(os.path.join(root, "crates.txt")))

    def folder(self, name):
        return os.path.join(self.root, "crates", name)

    def library(self, name):
        return os.path.join(self.folder(name), "out", "rlib", name + ".rlib")

    def has_libraries(self, name):
        """Whether each crate below was built as a library, which a proved one is."""
        return all(os.path.isdir(self.library(word)) for word in crates.below(self.crates, name))

    def words(self, name):
        """From the crate's folder."""
        root = "src/main.rt" if os.path.exists(os.path.join(self.folder(name), "src", "main.rt")) else "src/lib.rt"
        home, words = os.path.join(self.kit, "rlibs"), ["--crate-name", name, root]
        for word in ["core", "std"] + self.crates[name].split():
            place = self.library(word) if word in self.crates else os.path.join(home, word + ".rlib")
            words += ["--extern", "%s=%s" % (word, place)]
        for place in [home] + [os.path.dirname(self.library(word)) for word in crates.below(self.crates, name)]:
            words += ["-L", "dependency=" + place]
        return words + ["--antt-project", os.path.join(self.kit, "rattle", "logic", "antt-project.json"),
                        "--logic-built", os.path.join(self.kit, "logic_built")]

    def check(self, name):
        """The words of a check from nothing."""
        return [os.path.join(self.kit, "bin", "rattle"), "check", *self.words(name)]

    def archive(self, name, path):
        """The words that prove a crate and make a static library of it."""
        return [os.path.join(self.kit, "bin", "rattle"), "build", *self.words(name), "--crate-type", "staticlib",
                "--toolchain", programs.toolchain(), "-o", path]
