"""The first line of a made file."""

MARK = "-- Made by tools/remake "


def header(target, answers, about):
    """The line that says which command makes a file, from which answers, and what the file is."""
    return f"{MARK}{target} from tools/ans/{target.crate}/{answers}: {about}\n"
