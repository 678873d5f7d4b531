"""What walkgen does not do."""


class Refused(Exception):
    """A form that is not walked, or a request that makes no sense: the message says what to write instead."""
