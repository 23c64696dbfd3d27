"""Free ports for tests: below those that the system gives out, so that no client, and nobody who asks for any port, takes one
between two lives of a desk. As a script, prints one."""
import random
import socket


def free_port():
    """A port of 127.0.0.1 that is free now."""
    while True:
        port = random.randrange(10240, 32768)
        with socket.socket() as probe:
            try:
                probe.bind(("127.0.0.1", port))
                return port
            except OSError:
                pass


def accepts(port):
    """Whether somebody listens on this port of 127.0.0.1."""
    with socket.socket() as stream:
        return stream.connect_ex(("127.0.0.1", port)) == 0


if __name__ == "__main__":
    print(free_port())
