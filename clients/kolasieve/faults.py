"""What a client says in one message, before it ends with status 2."""


class Fault(Exception):
    """Something is wrong that whoever calls the client can mend; the text says what."""
