"""Tests of the clients: real programs on the loopback address, no stand-ins.

    /usr/bin/python3 -m unittest discover -s clients -t clients

KOLASIEVE_SERVER names the magicd that is tested, where it isn't the one that this repository's gate has built.
"""
