"""A desk of the built program with one post, and its peers over raw sockets: what `desk` and `hostile` stand on."""
import contextlib
import json
import os
import socket
import struct
import subprocess
import time

from journals import PROGRAM, TOP, expect, redirected

DAY = os.path.join(TOP, "examples", "day")
SECONDS = 10
REASONS = {200: "OK", 400: "Bad Request", 404: "Not Found", 405: "Method Not Allowed", 409: "Conflict", 411: "Length Required",
           413: "Payload Too Large", 431: "Request Header Fields Too Large"}
LOOK = b"GET /total HTTP/1.1\r\n\r\n"


def free_port():
    """A port of 127.0.0.1 that nobody has."""
    with socket.socket() as taken:
        taken.bind(("127.0.0.1", 0))
        return taken.getsockname()[1]


def connected(port):
    peer = socket.create_connection(("127.0.0.1", port), SECONDS)
    peer.setsockopt(socket.IPPROTO_TCP, socket.TCP_NODELAY, 1)
    return peer


def serve_words(journal, port):
    return [PROGRAM, "serve", "--journal", journal, "--port", str(port), "--workers", "1", "--rounds", "0"]


@contextlib.contextmanager
def serving(journal, output=subprocess.PIPE, port=None, how=""):
    """A desk on a journal, once it takes connections. It is killed where a check fails before it ended."""
    port = port or free_port()
    desk = subprocess.Popen(redirected(serve_words(journal, port), how), stdin=subprocess.DEVNULL, stdout=output)
    desk.port = port
    try:
        for _ in range(100 * SECONDS):
            with contextlib.suppress(ConnectionRefusedError):
                connected(port).close()
                break
            expect("a desk that serves", None, desk.poll())
            time.sleep(0.01)
        yield desk
    finally:
        desk.kill()
        desk.communicate()


def ended(desk):
    """The status that a desk ends with, and what it prints."""
    text, _ = desk.communicate(timeout=SECONDS)
    return desk.returncode, text


def request(method, target, body=None, *fields):
    lines = [f"{method} {target} HTTP/1.1", *fields] + ([] if body is None else [f"content-length: {len(body)}"])
    return "\r\n".join(lines).encode() + b"\r\n\r\n" + (body or b"")


def posted(do, key, *fields, **members):
    """The request of a command."""
    return request("POST", "/" + do, json.dumps({"account": 1, "key": key, **members}).encode(), *fields)


def page(status, body=None, allow=None, last=False):
    """The bytes of an answer."""
    body = b'{"error":%d}' % status if body is None else body
    lines = [f"HTTP/1.1 {status} {REASONS[status]}", "content-type: application/json", f"content-length: {len(body)}"]
    lines += [f"allow: {allow}"] * bool(allow) + ["connection: close"] * last
    return "\r\n".join(lines).encode() + b"\r\n\r\n" + body


def rest_of(peer):
    """What a peer gets up to the end of its connection."""
    pieces = []
    while piece := peer.recv(65536):
        pieces.append(piece)
    return b"".join(pieces)


def page_of(peer):
    """The next answer."""
    text = b""
    while b"\r\n\r\n" not in text or len(text.split(b"\r\n\r\n", 1)[1]) < int(text.split(b"content-length: ")[1].split(b"\r\n")[0]):
        piece = peer.recv(65536)
        if not piece:
            break
        text += piece
    return text


def answered(port, *pieces, half_closed=False):
    """All that a connection is answered which sends these pieces, and then nothing more or its end."""
    with connected(port) as peer:
        for piece in pieces:
            peer.sendall(piece)
        if half_closed:
            peer.shutdown(socket.SHUT_WR)
        return rest_of(peer)


def reset(peer):
    """Ends a connection by a reset, so that what is put on it fails."""
    peer.setsockopt(socket.SOL_SOCKET, socket.SO_LINGER, struct.pack("ii", 1, 0))
    peer.close()
