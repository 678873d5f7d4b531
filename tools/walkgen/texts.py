"""Files: the texts that walkgen keeps in lib/, and those that it reads and writes in a crate."""
import os

HERE = os.path.dirname(os.path.abspath(__file__))


def kept(name):
    """A text of lib/."""
    return content(os.path.join(HERE, "lib", name))


def content(path):
    """What is in a file, or None if there is none."""
    if not os.path.exists(path):
        return None
    with open(path, encoding="utf-8") as file:
        return file.read()


def write(path, text):
    os.makedirs(os.path.dirname(path), exist_ok=True)
    with open(path, "w", encoding="utf-8") as file:
        file.write(text)


def first_line(text):
    return text.split("\n", 1)[0]
