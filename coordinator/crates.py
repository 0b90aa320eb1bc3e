"""The crates that crates.txt lists, and which stands on which."""


def listed(text):
    """Each crate with the text behind its colon, as written: the words in it are what the crate stands on."""
    found = {}
    for line in text.splitlines():
        name, colon, below = line.split("#")[0].partition(":")
        if colon:
            # behind the name may stand what `rt` is to make of it
            found[name.split()[0]] = below
    return found


def below(crates, name):
    """The listed crates that this one reaches."""
    found, todo = [], [name]
    while todo:
        new = [word for word in crates[todo.pop()].split() if word in crates and word not in found]
        found += new
        todo += new
    return found


def above(crates, names):
    """The listed crates that stand on one of these, and are none of them."""
    return [name for name in crates if name not in names and any(word in names for word in below(crates, name))]
