"""A team's certificates, made as its people make them."""

import pathlib
import shutil
import subprocess
import tempfile

from kolasieve import certificates
from tests.etcds import free_port
from tests.serving import HERE, SERVER, Client, RelayCase

HAVE_OPENSSL = shutil.which("openssl") is not None


class Team:
    """A folder with an authority of its own, and certificates that are made when they are asked for."""

    def __init__(self, case):
        folder = tempfile.TemporaryDirectory()
        case.addClassCleanup(folder.cleanup)
        self.folder = pathlib.Path(folder.name)

    def make(self, name, *addresses):
        """Returns the certificate, the key and the authority of a name."""
        if not (self.folder / f"{name}.crt").exists():
            subprocess.run([HERE.parent / "certificate", self.folder, name, *addresses], check=True)
        return [str(self.folder / file) for file in (f"{name}.crt", f"{name}.key", "ca.crt")]

    def machine(self):
        return self.make("machine", "127.0.0.1", "localhost")

    def context(self, name):
        """Returns what a client of this name connects with."""
        return certificates.of_client(*self.make(name))

    def ended(self, name):
        """Makes a certificate that has ended, and returns the files."""
        return self.make_again(name, f"/CN={name}", days=-1)

    def without_name(self):
        """Makes a certificate that names nobody, and returns the files."""
        return self.make_again("people", "/O=people", days=1)

    def make_again(self, name, subject, days):
        certificate, key, authority = self.make(name)
        request, signing = self.folder / "request", ["-CA", authority, "-CAkey", self.folder / "ca.key"]
        for words in (
            ["req", "-new", "-key", key, "-subj", subject, "-out", request],
            ["x509", "-req", "-in", request, *signing, "-days", str(days), "-out", certificate],
        ):
            subprocess.run(["openssl", *words], check=True, stderr=subprocess.DEVNULL)
        return [certificate, key, authority]


class CertifiedCase(RelayCase):
    """A relay at a port for who has a certificate."""

    log = True

    @classmethod
    def setUpClass(cls):
        cls.team = Team(cls)
        cls.strangers = Team(cls)

    def command(self, *words):
        certificate, key, authority = self.team.machine()
        return [
            HERE.parent / "relay", "--listen", f"127.0.0.1:{self.port}", "--page", str(self.page),
            "--tls", certificate, key, "--clients", authority, "--server", SERVER,
            "--log", str(self.folder / "log"), *self.words, *words,
        ]

    def start(self, *words):
        self.port, self.page = free_port(), free_port()
        self.relay = subprocess.Popen(self.command(*words), stderr=self.messages, start_new_session=True)

        def is_there():
            try:
                self.designer("nobody").close()
                return True
            except OSError:
                return False

        self.until(is_there)

    def designer(self, name):
        client = Client(("127.0.0.1", self.port), self.team.context(name))
        self.addCleanup(client.close)
        return client
