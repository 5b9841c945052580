"""The list of damages."""
ALL = []


def damage(title):
    """Adds a function to the list."""
    def add(function):
        ALL.append((title, function))
        return function
    return add
