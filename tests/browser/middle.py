"""What stands between the site and the desk, and breaks what passes there where a check wants it."""
import contextlib
import socket
import threading
from collections.abc import Iterator

PIECE = 65_536
HEAD = "HTTP/1.1 {}\r\nContent-Type: {}\r\nContent-Length: {}\r\nConnection: close\r\n\r\n"
# The ways in which the next writes go wrong.
LOST = "the desk never gets the request"
UNHEARD = "the desk does it, and its reply is lost"
HALF = "half of the reply comes"
NO_MEMORY = "503 desk.memory"
NO_STORE = "503 desk.store, after the write was done"
CROWDED = "429, as where many ask at once"
NONSENSE = "200 with what is not JSON"


def whole_request(connection: socket.socket) -> bytes:
    """The bytes of a request: its head, and a body as long as the head says."""
    received = b""
    while b"\r\n\r\n" not in received:
        piece = connection.recv(PIECE)
        if not piece:
            return received
        received += piece
    head, _, body = received.partition(b"\r\n\r\n")
    length = next(
        (
            int(line[15:])
            for line in head.split(b"\r\n")
            if line.lower().startswith(b"content-length:")
        ),
        0,
    )
    while len(body) < length:
        body += connection.recv(PIECE)
    return head + b"\r\n\r\n" + body


def reply_of(status: str, kind: str, body: str = "") -> bytes:
    return (HEAD.format(status, kind, len(body)) + body).encode()


def unavailable(name: str) -> bytes:
    return reply_of("503 Service Unavailable", "application/json", f'{{"denied":"{name}"}}')


class Middle:
    """Passes requests to the desk. `breaks(how, times)` breaks the next writes; `hold()` keeps all replies back."""

    def __init__(self, port: int, desk_port: int) -> None:
        self.port, self.desk_port, self.free = port, desk_port, threading.Event()
        self.planned: list[tuple[str, bytes]] = []
        self.seen: list[str] = []
        self.free.set()
        self.is_gone = False
        self.server = socket.create_server(("127.0.0.1", port), backlog=200)
        threading.Thread(target=self.serve, daemon=True).start()

    def close(self) -> None:
        self.free.set()
        self.server.close()

    def breaks(self, how: str, times: int = 1, method: bytes = b"POST") -> None:
        self.planned += [(how, method)] * times

    @contextlib.contextmanager
    def hold(self) -> Iterator[None]:
        """No reply comes meanwhile; the desk has done what it was asked."""
        self.free.clear()
        try:
            yield
        finally:
            self.free.set()

    @contextlib.contextmanager
    def gone(self) -> Iterator[None]:
        """Nobody answers meanwhile, as where the desk is being started."""
        self.is_gone = True
        try:
            yield
        finally:
            self.is_gone = False

    def writes(self) -> list[str]:
        """The paths of the writes that came since this was called last."""
        seen, self.seen = self.seen, []
        return seen

    def serve(self) -> None:
        with contextlib.suppress(OSError):
            while True:
                connection, _ = self.server.accept()
                threading.Thread(target=self.answer, args=(connection,), daemon=True).start()

    def answer(self, connection: socket.socket) -> None:
        with connection, contextlib.suppress(OSError):
            if self.is_gone:
                return
            connection.settimeout(120)
            request = whole_request(connection)
            if request.startswith(b"POST"):
                self.seen.append(request.split(b" ", 2)[1].decode())
            how = next((it for it in self.planned if request.startswith(it[1])), None)
            if how:
                self.planned.remove(how)
            connection.sendall(self.reply_to(request, how[0] if how else None))

    def reply_to(self, request: bytes, how: str | None) -> bytes:
        if how == LOST:
            return b""
        if how == CROWDED:
            return reply_of("429 Too Many Requests", "text/plain")
        if how == NO_MEMORY:
            return unavailable("desk.memory")
        reply = self.asked(request)
        self.free.wait()
        if how == UNHEARD:
            return b""
        if how == HALF:
            return reply[: -max(1, len(reply.partition(b"\r\n\r\n")[2]) // 2)]
        if how == NONSENSE:
            return reply_of("200 OK", "text/html", "<p>Hello!")
        return unavailable("desk.store") if how == NO_STORE else reply

    def asked(self, request: bytes) -> bytes:
        reply = b""
        with socket.create_connection(("127.0.0.1", self.desk_port), 120) as desk:
            desk.sendall(request)
            while piece := desk.recv(PIECE):
                reply += piece
        return reply
