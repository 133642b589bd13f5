"""How the reading or the judgement of a line ends early."""


class Refused(Exception):
    """What follows `refused`."""
