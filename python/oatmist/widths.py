"""How wide a text is where every character has the same width."""
import unicodedata


def columns_of(text):
    """How many columns it takes: wide letters take two, marks on letters none."""
    return sum(2 if unicodedata.east_asian_width(letter) in "WF" else not unicodedata.combining(letter) for letter in text)
