"""Files that a script makes: written, or compared with what is there."""


def write(wanted):
    """wanted: from each path to its bytes"""
    for path, content in wanted.items():
        path.write_bytes(content)


def check(root, wanted, found=()):
    """Says which wanted files differ from what is there, and which of the found ones are not wanted; returns how many these are."""
    differing = [path for path, content in wanted.items() if not path.exists() or path.read_bytes() != content]
    strays = [path for path in sorted(found) if path not in wanted]
    for what, paths in [("differs", differing), ("not made here", strays)]:
        for path in paths:
            print(f"{what}: {path.relative_to(root)}")
    return len(differing) + len(strays)


def write_or_check(root, wanted, checking, found=()):
    """The exit code: 1 where a check has something to say, else 0."""
    if checking:
        return int(check(root, wanted, found) > 0)
    write(wanted)
    return 0
