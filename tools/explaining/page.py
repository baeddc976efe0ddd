"""What docs/reference/DECK.md says of the codes."""
import re


def rows_of(path):
    """The rows of the page's table: for each code what brings it about, and how to mend it; none where the page has no table."""
    try:
        with open(path, encoding="utf-8") as file:
            lines = file.read().split("\n")
    except (OSError, UnicodeDecodeError):
        return {}
    cells = [[cell.strip() for cell in re.split(r"(?<!\\)\|", line)[1:-1]] for line in lines if line.startswith("|")]
    return {row[0]: (row[2], row[3]) for row in cells if len(row) == 4 and row[0].isdigit()}
