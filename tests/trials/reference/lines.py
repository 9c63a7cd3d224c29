"""The line of a text that starts at a place, from document 01 ("The gym file": every line ends in one LF)."""


def line_from(text, at):
    """The place of its LF and the place after it, or None where no LF follows."""
    later = [i for i, byte in enumerate(text) if i >= at and byte == 10]
    return (later[0], later[0] + 1) if later else None
