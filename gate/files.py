"""Files that are read and written whole."""
import os


def read(path):
    """Returns the bytes of a file."""
    with open(path, "rb") as file:
        return file.read()


def write(path, content):
    """Makes a file of some bytes, and returns its path."""
    with open(path, "wb") as file:
        file.write(content)
    return path


def write_text(path, text):
    """Makes a file of some text, and the folders that it stands in."""
    os.makedirs(os.path.dirname(path), exist_ok=True)
    with open(path, "w", encoding="utf-8") as file:
        file.write(text)
