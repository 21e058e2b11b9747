"""What real children rely on. A test that finds one broken says so by its own name, since who runs the tests tries such a one never again."""


class Promise(AssertionError):
    """A promise is broken: two processes of one child at once, a child that is lost, an id that the wrong node answers."""


def need(holds, what):
    """Promise where something doesn't hold that real children rely on."""
    if not holds:
        raise Promise(what)
