"""The errors that end a command with one line."""


class WrongInput(Exception):
    """What the user gave cannot be worked on; nothing was written (status 2)."""


class NotRight(Exception):
    """`contour check` did not call the replies right, or the program failed; nothing was written (status 1)."""
