"""What the tool can't go on with: one message for a line of the output."""


class Fault(Exception):
    pass


def ask(holds, message):
    if not holds:
        raise Fault(message)
