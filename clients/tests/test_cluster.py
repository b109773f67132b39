"""What CLUSTER.md has typed is typed on one machine, as the page says: 10.0.0.N is 127.0.0.N here."""

import re
import shutil
import subprocess
import unittest

from tests.certificates import HAVE_OPENSSL
from tests.etcds import HAVE_ETCD, free_port
from tests.serving import GENEROUS, ROOT, SERVER, lines_after
from tests.typed import TypedCase, blocks, given

HAVE_ALL = HAVE_ETCD and HAVE_OPENSSL and all(map(shutil.which, ("etcdctl", "haproxy")))

NAMES = "one", "two", "three"


@unittest.skipUnless(HAVE_ALL, "etcd-server, etcd-client, python3-etcd3, haproxy or openssl isn't installed")
class Cluster(TypedCase):
    def setUp(self):
        super().setUp()
        self.ports = {port: str(free_port()) for port in ("2379", "2380", "7700", "7777", "8080")}
        (self.home / "bin").mkdir()
        (self.home / "bin/magicd").symlink_to(SERVER)
        self.variables |= {"PATH": f"{self.home}/bin:/usr/sbin:/usr/bin:/bin"}
        self.commands = given(self, "docs/CLUSTER.md")

    def here(self, command):
        """Returns a command with the addresses and ports of this test."""
        command = re.sub(r"\b10\.0\.0\.(\d)", r"127.0.0.\1", command)
        for port, own in self.ports.items():
            command = re.sub(rf":{port}\b", f":{own}", command)
        command = re.sub(r"--page 8080", f"--page {self.ports['8080']}", command)
        return command

    def taken(self, beginning):
        """Takes the next command, which begins so."""
        self.assertRegex(self.commands[0], rf"\A{beginning}")
        return self.here(self.commands.pop(0))

    def all_taken(self, beginning):
        """Takes all next commands that begin so."""
        found = [self.taken(beginning)]
        while re.match(beginning, self.commands[0]):
            found.append(self.taken(beginning))
        return found

    def well(self, command):
        """Types a command, which must end well, and returns what it says."""
        said, status = self.ended(command)
        self.assertEqual(status, 0, f"{command}: {said}")
        return said

    def on(self, number, command, name):
        """Starts a command on a machine, with its messages in a file."""
        self.variables |= {"name": name, "here": f"127.0.0.{number}"}
        self.messages = self.home / f"{name}.{command.split()[0].rpartition('/')[2]}"
        with open(self.messages, "w", encoding="utf-8") as messages:
            return self.start(command, stdin=subprocess.DEVNULL, stdout=messages, stderr=messages)

    def shown(self, command):
        """Returns what the page shows behind a command, of one of its blocks."""
        (block,) = [each for each in blocks("docs/CLUSTER.md") if f"$ {command}" in each]
        return block.partition(f"$ {command}")[2].partition("\n")[2].partition("$ ")[0]

    def in_form(self, text):
        """Returns the form of what the page shows: another time, another host's name, and either relay."""
        text = re.sub(r"(?:\\ ){2,}", r"\\s+", re.escape(self.here(text)))
        text = re.sub(r"\d{4}\\-\d\d\\-\d\d\\ \d\d:\d\d:\d\d", r"\\d{4}-\\d\\d-\\d\\d \\d\\d:\\d\\d:\\d\\d", text)
        return re.sub(r"127\\\.0\\\.0\\\.1:(\d+)\\ on\\ one", r"127\\.0\\.0\\.[12]:\1 on \\S+", text)

    def test_what_is_typed(self):
        self.make_certificates()
        self.start_machines()
        designer = self.connect()
        self.replace_an_etcd(designer)
        self.look_at_the_log(designer)
        self.clear_and_copy()
        self.assertEqual(self.commands, [])

    def make_certificates(self):
        for command in self.all_taken("clients/certificate machines "):
            # etcd is called from 127.0.0.1 where it hasn't this address itself.
            self.well(command if " one " in command else f"{command} 127.0.0.1")
        for beginning in ("clients/certificate team ", "cat ", "clients/certificate team "):
            self.well(self.taken(beginning))

    def start_machines(self):
        self.taken("name=one here=")
        self.etcd = self.taken("etcd ")
        self.etcds = {name: self.on(number, self.etcd, name) for number, name in enumerate(NAMES, 1)}
        relay = f"{self.taken('clients/relay ')} --server {SERVER}"
        self.relays = [self.on(number, relay, name) for number, name in enumerate(NAMES[:2], 1)]
        for name in NAMES[:2]:
            self.until(lambda name=name: "listening at" in (self.home / f"{name}.relay").read_text())
        haproxy = self.taken("haproxy ")
        configured = self.here((ROOT / "clients/haproxy.cfg").read_text()).replace("bind :", "bind 127.0.0.9:")
        (self.top / "haproxy.cfg").write_text(configured)
        self.on(9, haproxy.replace("clients/haproxy.cfg", "haproxy.cfg"), "haproxy")

    def connect(self):
        """Types the designer's lines, and returns the program, in which more can be typed."""
        command = self.taken("clients/talk ")
        shown = self.shown("clients/talk ").splitlines()
        self.until(lambda: self.ended(command, "?\n")[0].startswith("line 1 fault"), 0.5)
        designer = self.start(command, stdin=subprocess.PIPE, stdout=subprocess.PIPE, stderr=subprocess.STDOUT)
        for line in shown:
            if re.match(r"[%@]\w", line):
                designer.stdin.write(f"{line}\n")
                designer.stdin.flush()
            else:
                self.assertRegex(designer.stdout.readline(), rf"\A{self.in_form(line)}\n\Z")
        return designer

    def ask(self, designer, line):
        designer.stdin.write(f"{line}\n")
        designer.stdin.flush()
        head = designer.stdout.readline()
        return head + "".join(designer.stdout.readline() for _ in range(lines_after(head.encode())))

    def replace_an_etcd(self, designer):
        export = self.taken("export ETCDCTL_API")
        self.variables |= dict(re.findall(r"(\w+)=(\S+)", export))
        members = self.well(self.taken("etcdctl member list"))
        self.assertEqual(sorted(re.findall(r"started, (\w+),", members)), sorted(NAMES))
        self.etcds["three"].kill()
        self.etcds["three"].wait()
        # Those that are left agree on a leader again.
        self.until(lambda: self.ended("etcdctl endpoint health")[1] == 0, 0.5)
        lost = re.search(r"(?m)^(\w+), started, three,", members)[1]
        self.well(self.taken("etcdctl member remove ID").replace("ID", lost))
        self.well(self.taken("clients/certificate machines four") + " 127.0.0.1")
        add = self.taken("etcdctl member add four")
        # Refused while the others have been connected for less than five seconds.
        said = self.until(lambda: (found := self.ended(add))[1] == 0 and found[0], 0.5)
        whole = re.search(r'ETCD_INITIAL_CLUSTER="(.*)"', said)[1]
        command = re.sub(r"(--initial-cluster )\S+", rf"\1{whole} --initial-cluster-state existing", self.etcd)
        self.etcds["four"] = self.on(4, command, "four")
        self.until(lambda: "started, four," in self.well("etcdctl member list"))
        self.assertEqual(self.ask(designer, "ben box 0 0 1 10"), "ben ok\n")

    def look_at_the_log(self, designer):
        for export in self.all_taken("export "):
            name, value = re.fullmatch(r"export (\w+)='?(.*?)'?", export).groups()
            self.variables[name] = value
        for _ in range(2):
            shown = self.shown(self.commands[0])
            self.assertRegex(self.well(self.taken(r"clients/log \$TLS (list|show) ")), rf"\A{self.in_form(shown)}\Z")
        designer.stdin.close()
        designer.wait(GENEROUS)
        for relay in self.relays:
            relay.terminate()
            self.assertEqual(relay.wait(GENEROUS), 0)

    def clear_and_copy(self):
        self.make_a_day()
        self.assertEqual(self.well(self.taken("clients/log show day.log ")), "ben opened\nben ok\nben ok\n")
        self.well(self.taken(r"clients/log \$TLS remove "))
        self.until(lambda: self.ended(self.commands[0])[1] == 0)
        self.taken("etcdctl defrag")
        owner = re.search(r"(\S+)/ben\s", self.well("clients/log list day.log"))[1]
        # The other log must have no session.
        copy = self.taken(r"clients/log \$TLS copy ").replace("$LOG", "$LOG/other").replace("ben@one", owner)
        self.well(copy)
        self.assertRegex(self.well("clients/log $TLS list $LOG/other"), r"\Acert:ben/ben\s+opened .*\sleft\n\Z")

    def make_a_day(self):
        """Makes the file day.log, with a session of its own."""
        relay = self.on(1, f"clients/relay --socket {self.home}/socket --log day.log --server {SERVER}", "day")
        self.until(lambda: "listening at" in self.messages.read_text())
        lines = "%open ben\nben box 0 0 1 10\nben paint poly\n"
        self.assertEqual(self.ended(f"clients/talk {self.home}/socket", lines)[1], 0)
        relay.terminate()
        self.assertEqual(relay.wait(GENEROUS), 0)


if __name__ == "__main__":
    unittest.main()
