"""Texts with placeholders, such as `%NAME`."""


def filled(text, **values):
    """Returns a text with a value for each placeholder: `filled("%NAME runs", NAME="mud_serve")`."""
    for name, value in values.items():
        text = text.replace(f"%{name}", value)
    return text
