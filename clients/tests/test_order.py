"""Lines that take a while: a connection's other sessions go on, and its replies stay in order."""

import threading

from tests.holding import Holding
from tests.serving import RelayCase, alone, random_lines
from tests.test_log import LoggedCase


class Order(LoggedCase):
    def command(self, *words):
        if not hasattr(self, "server"):
            self.server = Holding(self.folder)
        command = super().command(*words)
        command[command.index("--server") + 1] = str(self.server.path)
        return command

    def check(self, client, lines, replies, rows):
        """While the session `held` waits, the others' lines are carried out; then all replies come in order."""
        self.server.hold()
        client.send(*lines)
        self.until(lambda: all(len(self.rows(name)) == count for name, count in rows.items()))
        self.server.go()
        self.assertEqual([client.reply() for _ in lines], replies)

    def test_others_go_on(self):
        client = self.client()
        self.assertEqual(client.ask("%open b"), ["b opened"])
        self.check(
            client,
            ["%open held", "held box 0 0 4 4", "held paint m1", "b box 0 0 4 4", "%open c", "c box 0 0 1 1", "held what"],
            ["held opened", "held ok", "held ok", "b ok", "c opened", "c ok", "held what 1 m1"],
            {"b": 1, "c": 1},
        )
        client.close()
        again = self.client()
        self.assertEqual([self.resumed(again, f"@resume {name}") for name in ("b", "c")], ["b resumed 1", "c resumed 1"])
        # The session is closed in magicd, once its connection has ended, before it can be resumed.
        self.assertEqual(self.resumed(again, "@resume held"), "held resumed 3")
        again.ask("@leave held")
        self.check(
            again,
            ["@resume held 2", "held what", "b paint poly", "c paint poly", "%close c", "b what"],
            ["held resumed 3", "@ 3 held what 1 m1", "held what 1 m1", "b ok", "c ok", "c closed"],
            {"b": 3, "c": 2},
        )
        self.assertEqual(again.reply(), "b what 1 poly")
        self.check(
            again,
            ["%close held", "b box 0 0 9 9", "%open held", "held box 0 0 1 1", "held what"],
            ["held closed", "b ok", "held opened", "held ok", "held what 0"],
            {"b": 4},
        )


class Interleaved(RelayCase):
    def test_sessions_of_one_connection(self):
        """Lines of eight sessions, which are opened and closed among them, in any order: each has its replies alone."""
        scripts = {}
        for number in range(8):
            name = f"s{number}"
            scripts[name] = [
                f"%open {name}", *random_lines(name, 60, number), f"%close {name}", f"{name} what", f"%open {name}", f"{name} what"
            ]
        lines = [line for parts in zip(*scripts.values()) for line in parts]
        client = self.client()
        sending = threading.Thread(target=client.send, args=lines)
        sending.start()
        replies = [client.reply() for _ in lines]
        sending.join()
        for number, (name, script) in enumerate(scripts.items()):
            found = replies[number :: len(scripts)]
            # A fault has the number of the line in its connection.
            numbers = [len(scripts) * index + number + 1 for index in range(len(script))]
            expected = [
                f"line {at} {reply.split(' ', 2)[2]}" if reply.startswith("line ") else reply
                for at, reply in zip(numbers, alone(script))
            ]
            self.assertEqual(found, expected, name)
