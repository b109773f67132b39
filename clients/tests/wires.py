"""A network between programs that a test can cut."""

import selectors
import socket
import threading

# How long a wire waits for bytes before it looks whether it was cut, in seconds.
PAUSE = 0.05


class Wire:
    """Hands bytes on between who connects here and a port, until it is cut: nothing arrives then, and nobody is told."""

    def __init__(self, case, port):
        self.target = ("127.0.0.1", port)
        self.listener = socket.create_server(("127.0.0.1", 0))
        self.address = "127.0.0.1:%d" % self.listener.getsockname()[1]
        self.selector = selectors.DefaultSelector()
        self.selector.register(self.listener, selectors.EVENT_READ)
        # The other end of each end.
        self.others = {}
        self.is_cut, self.is_ending = threading.Event(), threading.Event()
        self.thread = threading.Thread(target=self.run, daemon=True)
        self.thread.start()
        case.addCleanup(self.end)

    def run(self):
        while not self.is_ending.is_set():
            if self.is_cut.is_set():
                self.is_ending.wait(PAUSE)
                continue
            for key, _ in self.selector.select(PAUSE):
                if key.fileobj is self.listener:
                    self.accept()
                elif key.fileobj in self.others:
                    self.hand_on(key.fileobj)

    def accept(self):
        near = self.listener.accept()[0]
        try:
            far = socket.create_connection(self.target)
        except OSError:
            near.close()
            return
        for one, other in ((near, far), (far, near)):
            self.others[one] = other
            self.selector.register(one, selectors.EVENT_READ)

    def hand_on(self, end):
        try:
            if found := end.recv(1 << 16):
                self.others[end].sendall(found)
                return
        except OSError:
            pass
        self.drop(end)

    def drop(self, end):
        """Closes a connection at both ends."""
        for each in (end, self.others[end]):
            del self.others[each]
            self.selector.unregister(each)
            each.close()

    def cut(self):
        self.is_cut.set()

    def mend(self):
        """Hands on what has waited, and what comes."""
        self.is_cut.clear()

    def end(self):
        self.is_ending.set()
        self.thread.join()
        for each in list(self.others):
            if each in self.others:
                self.drop(each)
        self.listener.close()
        self.selector.close()
