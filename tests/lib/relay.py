"""A relay before a store: it hands on the bytes of each connection, and knows how many puts of tiles and bundles are
under way, which the store wasn't seen to answer."""
import contextlib
import socket
import threading


def is_put(piece):
    """Whether a request begins here that puts a tile or a bundle."""
    return piece.startswith(b'PUT ') and b'/tile/' in piece.split(b'\r\n')[0]


class Relay:
    """Before a port of this machine, at a port of its own, until it is left."""

    def __init__(self, behind):
        self.behind, self.turn, self.under = behind, threading.Condition(), set()
        self.listener = socket.create_server(('127.0.0.1', 0))
        self.port = self.listener.getsockname()[1]
        threading.Thread(target=self.accept, daemon=True).start()

    def __enter__(self):
        return self

    def __exit__(self, *_):
        # (so that the thread that accepts ends, too)
        self.listener.shutdown(socket.SHUT_RDWR)
        self.listener.close()

    def accept(self):
        with contextlib.suppress(OSError):
            while True:
                client, _ = self.listener.accept()
                threading.Thread(target=self.join, args=(client,), daemon=True).start()

    def join(self, client):
        """Both ways of a connection, each by a thread; it is closed where the store isn't there."""
        try:
            store = socket.create_connection(('127.0.0.1', self.behind))
        except OSError:
            client.close()
            return
        for link in (client, store):
            link.setsockopt(socket.IPPROTO_TCP, socket.TCP_NODELAY, 1)
        threading.Thread(target=self.hand_on, args=(store, client, client, lambda _: False), daemon=True).start()
        self.hand_on(client, store, client, is_put)

    def hand_on(self, source, to, link, begins):
        """Hands on what comes from one side: with it a put of the connection begins, or is answered."""
        with contextlib.suppress(OSError):
            while piece := source.recv(65_536):
                if begins(piece):
                    self.note(link, True)
                elif to is link:
                    self.note(link, False)
                to.sendall(piece)
        self.note(link, False)
        for end in (source, to):
            with contextlib.suppress(OSError):
                end.shutdown(socket.SHUT_RDWR)

    def note(self, link, is_under_way):
        with self.turn:
            (self.under.add if is_under_way else self.under.discard)(link)
            self.turn.notify_all()

    def act_under(self, most, act, limit=60):
        """Waits until so many puts are under way and acts then, before an answer is handed on. How many they were: none
        where that didn't come within the limit, in seconds."""
        with self.turn:
            if not self.turn.wait_for(lambda: len(self.under) >= most, limit):
                return 0
            act()
            return len(self.under)
