"""A port of loopback for a server of a test. Called as a script, it prints one."""
import random
import socket

HOST = "127.0.0.1"
# They are below those that the system gives to clients (32,768 and above), since a client's connection that has ended
# still holds its port for a minute.
FIRST_PORT, LAST_PORT = 20_000, 32_767


def free_port() -> int:
    """A port of 127.0.0.1 that a server can take."""
    while True:
        port = random.randint(FIRST_PORT, LAST_PORT)
        with socket.socket() as trial:
            try:
                trial.bind((HOST, port))
            except OSError:
                continue
        return port


if __name__ == "__main__":
    print(free_port())
