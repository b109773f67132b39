"""Three etcds to test on, and a network before one of them that can be slow."""

import contextlib
import pathlib
import shutil
import signal
import socket
import subprocess
import threading
import time

try:
    import etcd3
except ImportError:
    etcd3 = None

HAVE_ETCD = etcd3 is not None and shutil.which("etcd") is not None


def free_port():
    with socket.socket() as probe:
        probe.bind(("127.0.0.1", 0))
        return probe.getsockname()[1]


class Etcds:
    """Etcds that are one cluster, each with a folder of its own."""

    def __init__(self, folder, count=3, tls=None):
        self.folder = pathlib.Path(folder)
        # The certificate of all of them, its key and the authority.
        self.tls = tls
        self.ports = [free_port() for _ in range(count)]
        self.peers = [free_port() for _ in range(count)]
        self.processes = [None] * count
        for index in range(count):
            self.start(index)
        self.wait()

    def start(self, index):
        where = "https://127.0.0.1:" if self.tls else "http://127.0.0.1:"
        here, peer = f"{where}{self.ports[index]}", f"{where}{self.peers[index]}"
        self.processes[index] = subprocess.Popen([
            "etcd", "--name", f"e{index}", "--data-dir", self.folder / f"e{index}",
            "--listen-client-urls", here, "--advertise-client-urls", here,
            "--listen-peer-urls", peer, "--initial-advertise-peer-urls", peer,
            "--initial-cluster", ",".join(f"e{i}={where}{port}" for i, port in enumerate(self.peers)),
            "--logger", "zap", "--log-level", "fatal", *self.secured(),
        ], stderr=subprocess.DEVNULL)

    def secured(self):
        if self.tls is None:
            return []
        certificate, key, authority = self.tls
        own = ["--cert-file", certificate, "--key-file", key, "--trusted-ca-file", authority, "--client-cert-auth"]
        return own + [word.replace("--", "--peer-", 1) if word.startswith("--") else word for word in own]

    def wait(self):
        """Waits until all reply."""
        for port in self.ports:
            for _ in range(300):
                try:
                    self.client(port).get("x")
                    break
                except etcd3.exceptions.Etcd3Exception:
                    time.sleep(0.1)
            else:
                raise TimeoutError("etcd doesn't start")

    def client(self, port):
        tls = dict(zip(("cert_cert", "cert_key", "ca_cert"), self.tls or ()))
        return etcd3.client("127.0.0.1", port, timeout=5, grpc_options=[("grpc.enable_http_proxy", 0)], **tls)

    def any(self):
        """Returns a client of one that replies."""
        while True:
            for port, process in zip(self.ports, self.processes):
                if process is not None:
                    client = self.client(port)
                    try:
                        client.get("x")
                        return client
                    except etcd3.exceptions.Etcd3Exception:
                        client.close()
            time.sleep(0.2)

    def leader(self):
        return int(self.any().status().leader.name[1:])

    def kill(self, index):
        self.signal(index, signal.SIGKILL)
        self.processes[index].wait()

    def signal(self, index, number):
        self.processes[index].send_signal(number)

    def end(self):
        for process in self.processes:
            process.send_signal(signal.SIGCONT)
            process.kill()
            process.wait()

    def log(self, ports=None, name="test"):
        """Returns how a relay is told of these."""
        return "etcd://" + ",".join(f"127.0.0.1:{port}" for port in ports or self.ports) + f"/{name}"

    def rows(self, session, name="test"):
        """Returns the rows of a session that isn't closed: number, line and reply."""
        client = self.any()
        records = [value for value, _ in client.get_prefix(f"{name}/open/{session}/")]
        if not records:
            return None
        id = records[0].decode().split('"id": "')[1].split('"')[0]
        found = []
        for value, about in client.get_prefix(f"{name}/lines/{id}/", sort_order="ascend"):
            head, _, reply = value.partition(b"\n")
            number, _, part = about.key.rpartition(b"/")[2].partition(b".")
            if not part:
                found.append((int(number), head.partition(b" ")[2].decode(), reply.decode()))
        return found


class SlowNetwork:
    """A port that hands on to another. What it is given while it holds back comes late, and nothing after it."""

    def __init__(self, port):
        self.target = port
        self.listening = socket.create_server(("127.0.0.1", 0))
        self.port = self.listening.getsockname()[1]
        self.holding = False
        self.kept = []
        # Both ends of each connection.
        self.ends = []
        threading.Thread(target=self.accept, daemon=True).start()

    def accept(self):
        try:
            while True:
                near, _ = self.listening.accept()
                self.ends.append(near)
                far = socket.create_connection(("127.0.0.1", self.target))
                self.ends.append(far)
                threading.Thread(target=self.forth, args=(near, far), daemon=True).start()
                threading.Thread(target=self.back, args=(far, near), daemon=True).start()
        except OSError:
            pass

    def forth(self, near, far):
        try:
            while part := near.recv(1 << 16):
                if self.holding:
                    self.kept.append((far, part))
                else:
                    far.sendall(part)
        except OSError:
            pass

    def back(self, far, near):
        try:
            while part := far.recv(1 << 16):
                near.sendall(part)
        except OSError:
            pass

    def hold_back(self):
        self.holding = True

    def freeze(self):
        """Returns what has come so far, to be handed on later."""
        kept, self.kept = self.kept, []
        return kept

    @staticmethod
    def hand_on(kept):
        for far, part in kept:
            far.sendall(part)

    def end(self):
        self.listening.close()
        for each in self.ends:
            with contextlib.suppress(OSError):
                each.shutdown(socket.SHUT_RDWR)
            each.close()
