"""Owners whose sessions have the same names: each has its own, under its name."""

import json
import sqlite3
import subprocess
import threading
import unittest

from tests.certificates import HAVE_OPENSSL, CertifiedCase
from tests.serving import HERE, alone, random_lines
from tests.test_etcd import EtcdCase


def lines_of(name, seed):
    """Returns lines of a session whose replies have its name, or a line's number, and lines as long as they may be."""
    long = f"{name} box 0 0 1 10"
    return [
        f"%open {name}", *random_lines(name, 100, seed), long.ljust(1024), long.ljust(1025), f"{name} paint m1",
        f" \t{name}  what", f"%  {name}", f"%open {name}", f"%journal {name}", f"%save {name}", f"%uses {name}",
        f"%why {name} 0 0 9 9", f"%violations {name} 0 0 99 99", f"%stat {name}", f"%audit {name}",
    ]


@unittest.skipUnless(HAVE_OPENSSL, "openssl isn't installed")
class Names(CertifiedCase):
    words = ("--servers", "1")

    def test_each_as_alone(self):
        team = {
            (owner, name): (self.designer(owner), lines_of(name, seed))
            for seed, (owner, name) in enumerate((owner, name) for owner in ("ann", "ben", "mia") for name in ("a", "b", "ben"))
        }
        found = {}

        def run(key, client, lines):
            found[key] = client.ask(*lines)

        threads = [threading.Thread(target=run, args=(key, *each)) for key, each in team.items()]
        for thread in threads:
            thread.start()
        for thread in threads:
            thread.join()
        for key, (_, lines) in team.items():
            replies = [certain(key[1], reply) for reply in found[key]]
            self.assertEqual(replies, [certain(key[1], reply) for reply in alone(lines)], key)

    def test_who_has_another_name_there(self):
        ann, ben, mia = (self.designer(name) for name in ("ann", "ben", "mia"))
        self.assertEqual([each.ask("%open a", "a box 0 0 1 1")[1] for each in (ann, ben)], ["a ok"] * 2)
        # Whatever name ben's session has in magicd, nobody else reaches it by that.
        for letter in "abcdefgh_0A":
            lines = [f"{letter} what", f"%save {letter}", f"%close {letter}", f"{letter} nonsense"]
            faults = ["fault 4 not open"] * 3 + ["fault 1 unknown command"]
            self.assertEqual([reply.split(" ", 2)[2] for reply in mia.ask(*lines)], faults)
        self.assertEqual(mia.ask(*(f"%open {letter}" for letter in "abcdefgh")), [f"{letter} opened" for letter in "abcdefgh"])
        self.assertEqual(ben.ask("a what", "%close a", "%open a", "a what")[2:], ["a opened", "a refused 3 no box"])
        self.assertEqual(ann.ask("a what"), ["a what 0"])
        # There are 63 names of one letter: one that is closed is free again.
        for _ in range(70):
            self.assertEqual(ben.ask("%close a", "%open a"), ["a closed", "a opened"])

    def test_the_log_has_both(self):
        for owner, kind in (("ben", "poly"), ("mia", "m1")):
            self.designer(owner).ask("%open a", "a box 0 0 4 4", f"a paint {kind}")
        self.end()
        listed = self.log_says("list").splitlines()
        self.assertEqual([line.split("\t")[0] for line in listed], ["cert:ben/a", "cert:mia/a"])
        self.assertIn("a paint m1", self.log_says("show", "cert:mia/a"))
        self.assertEqual(self.log_says("show", "a"), "log: a: cert:ben/a or cert:mia/a\n")
        self.start()
        for owner, kind in (("ben", "poly"), ("mia", "m1")):
            self.assertEqual(self.designer(owner).ask("@resume a", "a what"), ["a resumed 2", f"a what 1 {kind}"])

    def test_a_log_of_before(self):
        self.designer("ben").ask("%open a", "a box 0 0 4 4")
        self.end()
        with sqlite3.connect(self.folder / "log") as log:
            log.execute("drop index owners_names")
            log.execute("create unique index names on sessions (name) where closed is null")
        self.start()
        self.assertEqual(self.designer("mia").ask("%open a"), ["a opened"])
        self.assertEqual(self.designer("ben").ask("@resume a"), ["a resumed 1"])

    def log_says(self, what, *words):
        done = subprocess.run(
            [HERE.parent / "log", what, self.folder / "log", *words], capture_output=True, text=True, timeout=600, check=False
        )
        return done.stdout or done.stderr


def certain(name, reply):
    """Returns a reply without what depends on how far a session is checked, which is the workers' affair."""
    head, *lines = reply.split("\n")
    if " stat " in head or " count " in head:
        return head.split(" ")[:2]
    if " journal " in head:
        return head.split(" ")[:2] + [line for line in lines if not line.startswith(f"%steps {name} ")]
    return reply


class Before(EtcdCase):
    def test_a_log_of_before(self):
        machine = self.machine("one")
        client = self.client(machine)
        client.ask("%open a", "a box 0 0 4 4")
        client.close()
        machine.end()
        etcd = self.etcds.any()
        (value, at), = etcd.get_prefix(f"{self.name}/open/")
        etcd.delete(at.key.decode())
        etcd.put(f"{self.name}/open/a", value)
        self.assertEqual(json.loads(value)["id"].split(".")[0], "a")
        again = self.client(self.machine("two"))
        self.assertEqual(again.ask("@resume a"), ["a resumed 1"])
