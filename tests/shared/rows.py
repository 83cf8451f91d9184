"""Tables that tests and measurements print, row by row as they come."""

_LAST = []


def row(heading, text):
    """Prints a row, under its heading unless it goes on the table that was printed last."""
    if _LAST != [heading]:
        columns = heading.strip("|").split("|")
        print("%s%s\n|%s" % ("\n" if _LAST else "", heading, "---|" * len(columns)), flush=True)
        _LAST[:] = [heading]
    print(text, flush=True)
