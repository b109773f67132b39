"""The log: what was answered outlives the relay and its magicd, and nothing is done twice."""

import contextlib
import hashlib
import itertools
import os
import random
import shutil
import signal
import sqlite3
import subprocess
import sys
import threading
import time
import unittest

from kolasieve import chain
from tests.serving import HERE, Client, RelayCase, alone, limit_files, random_lines


class Designer:
    """A client that comes back: it sends its lines one by one, and resumes its session where the relay is gone."""

    def __init__(self, addresses, name, lines, tls=None, patience=60, pause=0):
        self.addresses = itertools.cycle(addresses)
        self.name, self.lines = name, lines
        self.tls, self.patience = tls, patience
        # How long it thinks before a line, at most, in seconds.
        self.pause = pause
        self.replies = {}
        self.client = None

    def run(self):
        number = 0
        while number < len(self.lines):
            try:
                if self.client is None:
                    number = self.come_back(number)
                    continue
                time.sleep(random.uniform(0, self.pause))
                reply = self.client.ask(f"{self.name} {self.lines[number]}")[0]
                if not reply or reply.startswith(f"{self.name} lost: "):
                    raise ConnectionError(reply)
                self.replies[number + 1] = reply
                number += 1
            except OSError:
                self.leave()
                time.sleep(0.05)
        self.leave()

    def leave(self):
        if self.client is not None:
            self.client.close()
        self.client = None

    def come_back(self, number):
        """Opens or resumes the session, and returns how many lines are done."""
        self.client = Client(next(self.addresses), self.tls, self.patience)
        if number == 0 and self.client.ask(f"%open {self.name}") == [f"{self.name} opened"]:
            return 0
        while " in use" in (reply := self.client.ask(f"@resume {self.name} {number}")[0]):
            time.sleep(0.05)
        if " resumed " not in reply:
            raise ConnectionError(reply)
        last = int(reply.split()[2])
        while max([number, *self.replies]) < last:
            # Replies that were durable and never read.
            _, row, text = self.client.reply().split(" ", 2)
            self.replies[int(row)] = text
        return last


def commands(count, seed):
    """Returns commands without faults, each of which has an entry in the journal."""
    lines = [line.split(" ", 1)[1] for line in random_lines("x", 2 * count, seed)]
    return [line for line in lines if line != "nonsense" and " x " not in line and line != "save"][:count]


def expected_rows(name, lines):
    """Returns the rows of a session that has had these commands, each of which has an entry in the journal."""
    texts = [f"{name} {line}" for line in lines]
    replies = alone([f"%open {name}", *texts])[1:]
    return [(number, text, reply + "\n") for number, (text, reply) in enumerate(zip(texts, replies), 1)]


def link_again(log, id):
    """Gives the rows of a session, as they are now, hashes that fit."""
    last = chain.FIRST
    rows = "select number, part, at, line, reply from lines where session = ? order by number, part"
    for row in log.execute(rows, (id,)).fetchall():
        last = chain.link(last, *row)
        log.execute("update lines set chain = ? where session = ? and number = ? and part = ?", (last, id, *row[:2]))
    log.execute("update sessions set last = ? where id = ?", (last, id))


class TeamCase(unittest.TestCase):
    """What designers were told, and what a log has, are those of their lines alone."""

    def check_done(self, team, rows):
        for each in team:
            expected = expected_rows(each.name, each.lines)
            replies = {number: reply.removesuffix("\n") for number, _, reply in expected}
            self.assertEqual(each.replies, replies)
            self.assertEqual(rows(each.name), expected)


class LoggedCase(RelayCase, TeamCase):
    """A relay with a log."""

    log = True

    def rows(self, name, parts="part = 0"):
        """Returns the rows of a session's lines, or other ones: number, line and reply."""
        with sqlite3.connect(self.folder / "log") as log:
            return log.execute(
                "select number, cast(line as text), cast(reply as text) from lines join sessions on session = id"
                f" where name = ? and {parts} order by number",
                (name.encode(),),
            ).fetchall()

    def check_killed(self, designers, lines, kills):
        """In the end every answered line is in the log once, in order, and all replies are those of the lines alone."""
        dice = random.Random(lines)
        team = [Designer([self.path], f"d{i}", commands(lines, i)) for i in range(designers)]
        threads = [threading.Thread(target=each.run, daemon=True) for each in team]
        for thread in threads:
            thread.start()
        for turn in range(kills):
            time.sleep(dice.uniform(0.3, 0.8))
            if turn % 2 == 0:
                self.kill()
                self.start()
            else:
                self.kill_programs()
        for thread in threads:
            thread.join(120)
            self.assertFalse(thread.is_alive())
        self.check_done(team, self.rows)


class Log(LoggedCase):
    def test_rows_are_the_journal_s(self):
        client = self.client()
        lines = ["a box 0 0 1 10", "a nonsense", "a paint poly", "%stat a", "a drc catchup"]
        lines += ["a paint none", "a drc count"]
        replies = client.ask("%open a", *lines)[1:]
        kept = [(1, 0), (3, 2), (4, 4), (5, 5), (6, 6)]
        self.assertEqual(
            self.rows("a"), [(number, lines[i], replies[i] + "\n") for number, i in kept]
        )

    @unittest.skipUnless(shutil.which("strace"), "strace isn't installed")
    def test_a_row_is_on_the_disk_before_its_reply(self):
        client = self.client()
        client.ask("%open a")
        words = ["-f", "-p", str(self.relay.pid), "-e", "trace=fsync,fdatasync,sendto", "-o", self.folder / "trace"]
        with subprocess.Popen(["strace", *words], stderr=subprocess.PIPE, text=True) as strace:
            if "attached" not in strace.stderr.readline():
                self.skipTest("strace may not look at the relay")
            self.assertEqual(client.ask("a box 0 0 1 10"), ["a ok"])
            strace.send_signal(signal.SIGINT)
        self.assertRegex((self.folder / "trace").read_text(), r'(?s)sync\(\d+.*sendto\(\d+, "a ok')

    def test_a_long_reply_is_kept_as_its_hash(self):
        client = self.client()
        client.ask("%open a", *(line for i in range(300) for line in (f"a box {2 * i} 0 {2 * i + 1} 90", "a paint m1")))
        text = client.ask("a save")[0].encode() + b"\n"
        self.assertGreater(len(text), 4096)
        self.assertEqual(self.rows("a")[-1][2], f"{len(text)} bytes sha256 {hashlib.sha256(text).hexdigest()}\n")
        client.close()
        again = self.client()
        self.assertEqual(self.resumed(again, "@resume a"), "a resumed 601")

    def test_a_left_session_is_resumed(self):
        client = self.client()
        client.ask("%open a", "a box 0 0 1 10", "a paint poly", "a drc catchup", "a drc count")
        client.close()
        other = self.client()
        self.assertEqual(self.resumed(other, "@resume a 3"), "a resumed 4")
        self.assertEqual(other.reply(), "@ 4 a count 10 errors 0 pending")
        self.assertEqual(other.ask("%open a", "a drc count", "%close a", "@resume a", "%open a"), [
            "a refused open 1 open already", "a count 10 errors 0 pending", "a closed",
            "a refused resume no such session", "a opened",
        ])

    def test_a_changed_reply_is_refused_with_its_line(self):
        client = self.client()
        client.ask("%open a", "a box 0 0 1 10", "a paint poly", "a what")
        client.close()
        self.end()
        with sqlite3.connect(self.folder / "log") as log:
            log.execute("update lines set reply = ? where number = 3", (b"a what 1 m1\n",))
            link_again(log, 1)
        self.start()
        client = self.client()
        self.assertEqual(client.ask("@resume a", "@resume a"), ["a refused resume line 3 differs"] * 2)

    def check_refused(self, changes, is_linked=False):
        """Each list of statements is carried out for a session of its own: it is refused then, with what is said."""
        client = self.client()
        for name in changes:
            client.ask(f"%open {name}", *(f"{name} {line}" for line in ("box 0 0 1 10", "paint poly", "what", "drc count")))
        client.close()
        self.end()
        with contextlib.closing(sqlite3.connect(self.folder / "log", isolation_level=None)) as log:
            for name, (_, statements) in changes.items():
                (id,) = log.execute("select id from sessions where name = ?", (name.encode(),)).fetchone()
                for statement in statements:
                    log.execute(statement.replace("{id}", str(id)))
                if is_linked:
                    link_again(log, id)
        self.start()
        client = self.client()
        for name, (said, _) in changes.items():
            self.assertIn(f"{name} refused resume {said}", client.ask(f"@resume {name}")[0])

    def test_the_chain(self):
        """A row changed, dropped, swapped, put in, or the last one gone: each is refused with its number."""
        move = "update lines set number = {} where number = {} and session = {{id}}"
        self.check_refused({
            "changed": ("row 2 doesn't follow", ["update lines set line = cast('changed paint m1' as blob)"
                                                 " where number = 2 and session = {id}"]),
            "dropped": ("row 3 doesn't follow", ["delete from lines where number = 2 and session = {id}"]),
            "swapped": ("row 2 doesn't follow", [move.format(n, m) for n, m in ((9, 2), (2, 3), (3, 9))]),
            "last": ("behind row 3 rows are missing", ["delete from lines where number = 4 and session = {id}"]),
            "all": ("its rows are missing", ["delete from lines where session = {id}"]),
            "put_in": ("row 5 doesn't follow", ["insert into lines select session, 5, 0, at, line, reply, chain from lines"
                                                " where number = 4 and session = {id}"]),
            "later": ("row 4 doesn't follow", ["update lines set at = at + 1 where number = 4 and session = {id}"]),
        })

    def test_rows_that_are_no_lines(self):
        """What a row must be is looked at even where the hashes fit: nothing else is ever played."""
        changes = {}
        for number, line in enumerate(("s0 paint poly\ns0 paint m1", "other paint poly", "%close three", "")):
            statement = f"update lines set line = cast('{line}' as blob) where number = 2 and session = {{id}}"
            changes[f"s{number}"] = ("row 2 is no line of a command", [statement])
        self.check_refused(changes, is_linked=True)

    def test_a_log_of_before_there_were_hashes(self):
        client = self.client()
        client.ask("%open a", "a box 0 0 1 10", "a paint poly", "a what", "%open b", "%close b")
        client.close()
        self.end()
        with sqlite3.connect(self.folder / "log") as log:
            log.executescript("""
                create table old (
                    session integer not null, number integer not null, at real not null, line blob not null,
                    reply blob not null, primary key (session, number)
                ) without rowid;
                insert into old select session, number, at, line, reply from lines;
                drop table lines;
                alter table old rename to lines;
                alter table sessions drop column last;
                alter table sessions drop column under;
                drop table texts;
                drop table cells;
                update settings set options = '--live';
            """)
        self.start()
        client = self.client()
        self.assertEqual(client.ask("@resume a", "a paint m1", "%open b"), ["a resumed 3", "a ok", "b opened"])
        client.close()
        self.end()
        self.start()
        self.assertEqual(self.client().ask("@resume a", "@undo a 4"), ["a resumed 4", "a undone 4: a paint m1"])

    def test_another_relay_and_other_options(self):
        second = self.command()
        second[second.index("--socket") + 1] += "2"
        refused = subprocess.run(second, stderr=subprocess.PIPE, text=True, timeout=20)
        self.assertEqual(refused.returncode, 1)
        self.assertRegex(refused.stderr, f"ERROR relay: {self.folder}/log: another relay has it\n\\Z")
        self.end()
        refused = subprocess.run(self.command("--quota", "99"), stderr=subprocess.PIPE, text=True, timeout=20)
        self.assertEqual(refused.returncode, 1)
        self.assertIn("it is of a server with other options", refused.stderr)

    def test_left_closed_and_opened_again(self):
        client, other = self.client(), self.client()
        client.ask("%open a", "a box 0 0 4 4", "a paint poly")
        self.assertEqual(client.ask("@leave a", "a what", "@leave a", "@leave", "@reopen a"), [
            "a left", "line 5 fault 4 not open", "line 6 fault 4 not open", "line 7 fault 1 unknown command",
            "a refused reopen open already",
        ])
        self.assertEqual(other.ask("@resume a", "a paint m1", "%close a", "@resume a"), [
            "a resumed 2", "a ok", "a closed", "a refused resume no such session",
        ])
        # A later one of that name is the last that was closed.
        self.assertEqual(client.ask("%open a", "a box 0 0 2 2", "%close a", "@reopen a", "a what", "@leave a"), [
            "a opened", "a ok", "a closed", "a reopened 1", "a what 0", "a left",
        ])
        self.assertEqual(client.ask("@resume a", "%close a", "@reopen b"), [
            "a resumed 2", "a closed", "b refused reopen no such session",
        ])
        self.kill()
        self.start()
        client = self.client()
        self.assertEqual(client.ask("@reopen a", "a what", "@undo a 2"), [
            "a reopened 2", "a what 0", "a refused undo no edit",
        ])
        first = ["a box 0 0 4 4", "a paint poly", "a paint m1", "%close a"]
        second = ["a box 0 0 2 2", "%close a", "@reopen a", "a what", "%close a", "@reopen a", "a what"]
        # The rows of both, by their numbers.
        self.assertEqual(sorted(line for _, line, _ in self.rows("a", "part >= 0")), sorted([*first, *second]))

    def log_says(self, *words, status=0):
        """Returns what `clients/log` writes, or, where it is to fail, what it says."""
        done = subprocess.run([HERE.parent / "log", *words], capture_output=True, text=True, timeout=600, check=False)
        self.assertEqual(done.returncode, status, done.stderr)
        return done.stdout if status == 0 else done.stderr

    def test_a_look_while_a_relay_has_it(self):
        client = self.client()
        lines = ["a box 0 0 1 10", "a paint poly", "a paint none", "a what", "a erase poly", "@undo a 5", "a drc check"]
        client.ask("%open a", *lines)
        file = str(self.folder / "log")
        self.assertRegex(self.log_says("list", file), r"^\S+/a\topened .*\tleft, or in use at the relay that has the log\n$")
        self.assertRegex(self.log_says("show", file, "a"), r"6 \S+ \S+ @undo a 5\na undone 5: a erase poly\n")
        held = self.log_says("show", file, "a", "--lines")
        self.assertEqual(held, "%open a\na box 0 0 1 10\na paint poly\na drc catchup\n")
        self.assertEqual(alone([*held.splitlines(), "%marks a"])[-1], client.ask("a drc catchup", "%marks a")[-1])
        self.assertIn("another relay has it", self.log_says("copy", file, file + "2", status=1))
        self.assertIn("another relay has it", self.log_says("remove", file, "0", status=1))
        self.end()
        before = sorted(self.folder.iterdir())
        self.assertRegex(self.log_says("list", file), r"^\S+/a\topened .*\tleft\n$")
        self.assertEqual(self.log_says("show", file, "a", "--lines").splitlines()[:-1], held.splitlines()[:-1])
        self.assertEqual(sorted(self.folder.iterdir()), before)

    def test_files_that_are_no_logs(self):
        """They are refused, by the relay too, and not a byte of them is changed."""
        with contextlib.closing(sqlite3.connect(self.folder / "foreign")) as foreign:
            foreign.execute("create table t (x)")
            foreign.commit()
        (self.folder / "text").write_text("no database\n" * 100)
        (self.folder / "empty").write_bytes(b"")
        for name in ("foreign", "text", "empty"):
            path = self.folder / name
            before, mode = path.read_bytes(), path.stat().st_mode
            for words in (["list", path], ["show", path, "a"], ["remove", path, "1"], ["copy", path, f"{path}2"]):
                self.assertRegex(self.log_says(*words, status=1), rf"^log: {path}: ")
            if name != "empty":
                command = self.command("--log", str(path))
                # The last one counts.
                command = [*command[: command.index("--log")], "--log", str(path), "--socket", f"{self.path}2"]
                refused = subprocess.run(command, capture_output=True, text=True, timeout=600, check=False)
                self.assertEqual(refused.returncode, 1)
                self.assertRegex(refused.stderr, rf"relay: {path}: ")
            self.assertEqual((path.read_bytes(), path.stat().st_mode), (before, mode))
            self.assertFalse([each for each in self.folder.iterdir() if each.name.startswith(f"{name}-")])

    def test_killed_again_and_again(self):
        self.check_killed(designers=8, lines=150, kills=4)

    @unittest.skipUnless(os.getuid() == 0, "only root has another user to be")
    def test_another_user_s_session(self):
        client = self.client()
        client.ask("%open a", "a box 0 0 4 4")
        client.close()
        os.chmod(self.folder, 0o755)
        os.chmod(self.path, 0o666)
        said = subprocess.run(
            [sys.executable, "-c", f"""
import os, socket
os.setuid(65534)
one = socket.socket(socket.AF_UNIX)
one.connect({self.path!r})
one.sendall(b"@resume a\\na what\\n%open b\\n")
replies = one.makefile()
print(replies.readline() + replies.readline() + replies.readline(), end="")
"""],
            stdout=subprocess.PIPE, text=True, check=True, timeout=20,
        ).stdout
        self.assertEqual(said, "a refused resume no such session\nline 2 fault 4 not open\nb opened\n")

    def test_a_full_disk(self):
        client = self.client()
        client.ask("%open a", "a box 0 0 4 4")
        limit_files([self.relay.pid], 0)
        self.assertTrue(client.ask("a paint poly")[0].startswith("a lost: "))
        other = self.client()
        self.assertTrue(other.ask("%open b")[0].startswith("b lost: "))
        limit_files([self.relay.pid])
        self.assertEqual(self.resumed(other, "@resume a"), "a resumed 1")
        self.assertEqual(other.ask("a paint poly", "a what"), ["a ok", "a what 1 poly"])
