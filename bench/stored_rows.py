"""Rows of the crate `stored_runs`: a name, and parts, each a key, a value and lines."""

# The commands of rows run on a shelf in memory, under this name.
NAME = "f"


def part(key, value="", lines=None):
    """A part. Its lines may end in any way, and there may be none."""
    assert lines is None or not any(mark in "\n" + lines for mark in ("\n-- ", "\n== ")), lines
    return "\n-- %s%s%s" % (key, value and " %s" % value, "" if lines is None else "\n" + lines)


def row(name, *parts):
    return "\n== " + name + "".join(parts)


def put_rows(path, head, rows):
    """Writes a file of rows. The last part has no lines, or they end with a line end."""
    text = head + "".join(rows)
    with open(path, "w", encoding="ascii") as out:
        out.write(text if text.endswith("\n") else text + "\n")
