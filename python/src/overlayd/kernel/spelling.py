"""What the layers of an expression are called."""

import string

LAYERS = 29  # that an expression may name


def name_of(number: int) -> str:
    """What a layer is called in an expression."""
    letters = string.ascii_lowercase
    return f"L{letters[number // len(letters)]}{letters[number % len(letters)]}"
