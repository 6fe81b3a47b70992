"""Ports on loopback that are free."""

import socket

MOST_PORT = 65_535


def free_port(above: int = 0) -> int:
    """A port that is free now, as is the one so many above it."""
    while True:
        with socket.socket() as free, socket.socket() as other:
            free.bind(("127.0.0.1", 0))
            port = int(free.getsockname()[1])
            try:
                if above and port + above <= MOST_PORT:
                    other.bind(("127.0.0.1", port + above))
                if port + above <= MOST_PORT:
                    return port
            except OSError:
                continue
