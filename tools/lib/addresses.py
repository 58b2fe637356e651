"""Addresses for tests over the loopback interface that no other program is likely to use.

A server or a client of another run may still send to a port of 127.0.0.1 that it knew before, and that the system has
given to a test since: what comes to an address of this run's own is of this run.
"""
import random


def own_network() -> str:
    """The first three numbers of such addresses, another for each run."""
    return f"127.{random.randrange(1, 255)}.{random.randrange(256)}"


def own_address() -> str:
    """One address."""
    return f"{own_network()}.{random.randrange(1, 255)}"
