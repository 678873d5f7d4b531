"""The text of a proof while it is written: its lines, and the context that its steps work on."""
from terms import list_of


class Script:
    """The lines of a walk."""

    def __init__(self):
        self.lines, self.indent = [], 0

    def write(self, text):
        """A line; nothing, if the text is empty."""
        if text:
            self.lines.append(" " * self.indent + text)

    def close(self, text=")"):
        """The end of what an earlier line opened, behind the last line."""
        self.lines[-1] += text


class Context:
    """The separation logic's context, as a list of labels: so each `move` is reckoned and never counted by hand.

    token: what the steps are given for their first argument, `!` in a proof and `t` under a binder of that name.
    """

    def __init__(self, labels, token="!"):
        self.labels, self.token = list(labels), token

    def bring(self, *labels):
        """The text of a `move` that brings labels to the head, or nothing where they stand there."""
        places = [self.labels.index(label) for label in labels]
        if places == list(range(len(places))):
            return ""
        self.labels = [*labels, *(label for label in self.labels if label not in labels)]
        return f"move {self.token} ({list_of(map(str, places))}) $ "

    def replace(self, count, *labels):
        """The first count labels become these."""
        self.labels[:count] = labels
