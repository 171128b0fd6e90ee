"""A port that no other process is given by chance while one of its two transports is free."""
import random
import socket

# Linux gives away ports from 32768 on to whoever asks for any, where nothing else is set; those below 1024 are the
# superuser's.
ASKED_FOR = range(1024, 32768)


def over_udp_alone(host):
    """A socket for datagrams, at a port that nobody has over TCP."""
    while True:
        with socket.socket() as stream:
            datagrams = socket.socket(type=socket.SOCK_DGRAM)
            try:
                stream.bind((host, random.choice(ASKED_FOR)))
                datagrams.bind(stream.getsockname())
                return datagrams
            except OSError:
                datagrams.close()
