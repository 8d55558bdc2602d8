"""The rows of crates/idc/data, read once for all that run them; those of examples/tools/slips.rows are read so too.

A row has lines `text`, `words` (with bars between them), `status`, `out` and `err`; an empty line ends it. A line that
begins with `#` says what the row shows, or those up to the next such line.
"""
import collections, glob, os

ROOT = os.path.dirname(os.path.dirname(os.path.abspath(__file__)))


def rows_of(path):
    """The rows of a file: by key the lines that have it, none where no line has."""
    with open(path, encoding="utf-8", newline="\n") as file:
        parts = file.read().split("\n\n")
    for part in parts:
        row = collections.defaultdict(list)
        for line in part.split("\n"):
            key, _, rest = line.partition(" ")
            row[key].append(rest)
        if row["text"] or row["words"]:
            yield row


def rows():
    """Each row of crates/idc/data, behind the name of its file."""
    for path in sorted(glob.glob(ROOT + "/crates/idc/data/*.rows")):
        for row in rows_of(path):
            yield os.path.basename(path), row


def text_of(row):
    """The bytes of a row's text."""
    return "\n".join(row["text"]).encode()


def words_of(row):
    """The words of a row's command line."""
    return row["words"][0].split("|")
