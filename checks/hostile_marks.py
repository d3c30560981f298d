"""What the tests of checks/hostile are marked by."""

# Kilobytes that a server may grow by in a test, where nothing else is said.
GROWTH = 60_000

TESTS = []

ALONE = []


def test(growth=GROWTH, words=(), says="", has_web=False):
    """A test of a server that is started with these words, may grow by so many KB, and says this by its end (anything,
    where that is nothing)."""

    def mark(function):
        TESTS.append((function, growth, words, says, has_web))
        return function

    return mark


def alone(function):
    """A test that starts programs itself."""
    ALONE.append(function)
    return function
