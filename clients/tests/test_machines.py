"""Two relays behind a haproxy, three etcds, and a team at work while machines fail."""

import contextlib
import pathlib
import random
import re
import shutil
import signal
import subprocess
import threading
import time
import unittest

from tests.certificates import HAVE_OPENSSL, Team
from tests.etcds import free_port
from tests.serving import HERE, Client
from tests.test_etcd import EtcdCase, Machine
from tests.test_log import Designer, commands

# Longer than a relay's lease.
BEYOND_THE_LEASE = 7


@unittest.skipUnless(HAVE_OPENSSL and shutil.which("haproxy"), "openssl or haproxy isn't installed")
class MachinesCase(EtcdCase):
    @classmethod
    def setUpClass(cls):
        super().setUpClass()
        cls.team = Team(cls)

    def setUp(self):
        super().setUp()
        certificate, key, authority = self.team.machine()
        self.machines, self.ports = [], [free_port() for _ in range(2)]
        for number, port in enumerate(self.ports):
            where = ["--listen", f"127.0.0.1:{port}", "--tls", certificate, key, "--clients", authority]
            machine = Machine(self.folder, f"m{number}", "--log", self.etcds.log(name=self.name), where=where)
            self.addCleanup(machine.end)
            self.machines.append(machine)
        self.port = free_port()
        self.start_haproxy()
        self.wait_for_haproxy()

    def start_haproxy(self):
        files = self.team.make("haproxy")[:2]
        (self.team.folder / "haproxy.pem").write_text("".join(pathlib.Path(file).read_text() for file in files))
        text = (HERE.parent / "haproxy.cfg").read_text()
        text = text.replace("bind :7700", f"bind 127.0.0.1:{self.port}")
        text = text.replace("machines/ca.crt", f"{self.team.folder}/ca.crt").replace("team/", f"{self.team.folder}/")
        ports = iter(self.ports)
        text = re.sub(r"10\.0\.0\.\d:7777", lambda _: f"127.0.0.1:{next(ports)}", text)
        (self.folder / "haproxy.cfg").write_text(text)
        messages = open(self.folder / "haproxy.messages", "w", encoding="utf-8")
        command = ["haproxy", "-db", "-f", self.folder / "haproxy.cfg"]
        haproxy = subprocess.Popen(command, stderr=messages, stdout=messages)
        self.addCleanup(messages.close)
        self.addCleanup(haproxy.wait)
        self.addCleanup(haproxy.kill)

    def wait_for_haproxy(self):
        for _ in range(300):
            try:
                client = Client(("127.0.0.1", self.port), self.team.context("nobody"), patience=5)
                with contextlib.closing(client):
                    if client.ask("?") != [""]:
                        return
            except OSError:
                pass
            time.sleep(0.1)
        self.fail((self.folder / "haproxy.messages").read_text() + "".join(machine.said() for machine in self.machines))

    # ---- what fails

    def an_etcd_is_killed(self):
        index = random.choice([each for each in range(3) if each != self.etcds.leader()])
        self.etcds.kill(index)
        time.sleep(1)
        self.etcds.start(index)

    def the_leader_is_killed(self):
        leader = self.etcds.leader()
        self.etcds.kill(leader)
        time.sleep(2)
        self.etcds.start(leader)

    def a_machine_is_killed(self):
        machine = random.choice(self.machines)
        machine.kill()
        time.sleep(1)
        machine.start()

    def a_relay_is_stopped(self):
        machine = random.choice(self.machines)
        machine.relay.send_signal(signal.SIGSTOP)
        time.sleep(BEYOND_THE_LEASE)
        machine.relay.send_signal(signal.SIGCONT)

    def two_etcds_are_gone(self):
        for index in (0, 2):
            self.etcds.kill(index)
        time.sleep(random.uniform(1, BEYOND_THE_LEASE))
        for index in (0, 2):
            self.etcds.start(index)

    FAILURES = (an_etcd_is_killed, the_leader_is_killed, a_machine_is_killed, a_relay_is_stopped, two_etcds_are_gone)

    def check_failures(self, failures, lines, pause):
        """In the end each line that was replied to is in the log once, in order, with the reply that it has alone."""
        team = [
            Designer([("127.0.0.1", self.port)], f"d{i}", commands(lines, i), self.team.context(f"b{i % 4}"), 20, pause)
            for i in range(16)
        ]
        threads = [threading.Thread(target=each.run, daemon=True) for each in team]
        for thread in threads:
            thread.start()
        done = []
        for fail in failures:
            time.sleep(random.uniform(1, 3))
            before = sum(len(each.replies) for each in team)
            fail(self)
            done.append(f"{fail.__name__}: {before} lines before it")
        while any(thread.is_alive() for thread in threads):
            before = sum(len(each.replies) for each in team)
            for thread in threads:
                thread.join(60 / len(threads))
            after = sum(len(each.replies) for each in team)
            self.assertTrue(after > before or not any(thread.is_alive() for thread in threads), done)
        self.check_done(team, self.rows)
        return done


class Machines(MachinesCase):
    def test_each_fails_in_turn(self):
        self.check_failures(self.FAILURES, lines=250, pause=0.15)


if __name__ == "__main__":
    unittest.main()
