"""A client that talks to a served broker frame by frame: for tests/connections, tests/full, tests/stress and tests/troubles."""
import socket
import struct

from encoding import CONNECT, CONNECTED
from server import SECONDS, Wrong

SILENCE = 0.2  # seconds
AT_ONCE = struct.pack("ii", 1, 0)  # for SO_LINGER: what was sent and not taken is lost, and the other end's next call fails


def connect(server):
    client = socket.create_connection(("127.0.0.1", server.port), SECONDS)
    client.setsockopt(socket.IPPROTO_TCP, socket.TCP_NODELAY, 1)
    return client


def read(client, count):
    """So many bytes, or as many as came before the end."""
    got = b""
    while len(got) < count:
        piece = client.recv(count - len(got))
        if not piece:
            break
        got += piece
    return got


def read_frame(client):
    """A whole frame, whatever it says, or what came of it before the end."""
    head = read(client, 4)
    return head + read(client, int.from_bytes(head, "big"))


def must_get(client, wanted, what):
    got = read(client, len(wanted))
    if got != wanted:
        raise Wrong(f"{what}: {got.hex()}, and not {wanted.hex()}")


def greeted(server):
    client = connect(server)
    client.sendall(CONNECT)
    must_get(client, CONNECTED, "CONNECT was answered")
    return client


def must_be_silent(client):
    """No message more comes."""
    client.settimeout(SILENCE)
    try:
        more = client.recv(1)
    except TimeoutError:
        more = b""
    if more:
        raise Wrong("a message came that mustn't")
    client.settimeout(SECONDS)


def break_off(client):
    client.setsockopt(socket.SOL_SOCKET, socket.SO_LINGER, AT_ONCE)
    client.close()
