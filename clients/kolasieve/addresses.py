"""Addresses: HOST:PORT."""

import argparse

from kolasieve.faults import Fault

MOST_PORT = 65535


class AddressFault(Fault):
    """A text is no address."""


def parse(address):
    """Returns the host and the port of an address."""
    host, colon, port = address.rpartition(":")
    if not colon or not host or not is_port(port):
        raise AddressFault(f"{address}: an address is HOST:PORT, with a port up to {MOST_PORT}")
    return host.removeprefix("[").removesuffix("]"), int(port)


def is_port(word):
    return word.isascii() and word.isdigit() and int(word) <= MOST_PORT


def port(word):
    """Returns the port that a word of a command line has."""
    if not is_port(word):
        raise argparse.ArgumentTypeError(f"{word}: a port is a number up to {MOST_PORT}")
    return int(word)
