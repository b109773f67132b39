"""Judges runs of scripts by magicd in which growths of memory are refused."""
import itertools
import re

from growth_runs import Failed, Run

# Replies after which so many lines follow.
WITH_LINES = re.compile(r"\w+ (?:saved|marked|errors|violations|uses|journal) (\d+)")


def name_in(line):
    """Returns the name of the session that a line is for."""
    words = line.split()
    return words[1] if words[0].startswith("%") else words[0]


def replying_in(lines):
    """Returns the places of the lines that have a reply."""
    return [at for at, line in enumerate(lines) if line.split() and not line.startswith("#")]


def replies_in(out):
    """Returns the replies of an output: each is a line, that of a text or a list with the lines that follow it."""
    text = out.decode()
    if text and not text.endswith("\n"):
        raise Failed("its last line has no end")
    lines, replies = text.split("\n")[:-1], []
    while lines:
        count = int(found[1]) if (found := WITH_LINES.fullmatch(lines[0])) else 0
        if len(lines) < count + 1:
            raise Failed("a saved text is cut")
        replies.append("\n".join(lines[: count + 1]))
        lines = lines[count + 1 :]
    return replies


# What a line may say of memory, and by which lines.
SAYS = {
    "open": (r"%open (\w+)", r"{} refused open 4 memory"),
    "save": (r"(\w+) save", r"{} refused 9 memory"),
    "why": (r"(\w+) drc why", r"{} refused 9 memory"),
    "what": (r"(\w+) what", r"{} refused 9 memory"),
    "catchup": (r"(\w+) drc catchup", r"{} refused 9 memory (\d+) pending"),
    "step": (r"%step (\w+)", r"{} step memory"),
    "look": (r"%(?:save|why|stat|uses|marks|errors|violations|journal) (\w+).*", r"{} refused 9 memory"),
}
MOST_STEPS = 12


class Trial:
    """A script whose growths are refused."""

    def __init__(self, program, folder, script):
        self.program, self.folder, self.script, self.seen = program, folder, script, {}
        self.usual = self.run_lines(script.lines)
        self.replies = replies_in(self.usual.out)
        if self.usual.status or b"memory" in self.usual.out:
            raise Failed(f"nothing was refused: status {self.usual.status}, or a line says memory")
        self.met = dict.fromkeys(["start", "tech", "cell", *SAYS, "reply", "usual"], 0)

    def run_lines(self, lines, at=0, on=False):
        given = "".join(f"{it}\n" for it in lines).encode()
        if at:
            return Run([self.program, *self.script.words], given, self.folder, at, on)
        if given not in self.seen:
            self.seen[given] = Run([self.program, *self.script.words], given, self.folder)
        return self.seen[given]

    def said_of(self, line, reply):
        """Returns which sort of line says that memory ran out, if one does, and how many areas are pending."""
        for sort, (asks, says) in SAYS.items():
            if found := re.fullmatch(asks, line.strip()):
                if found := re.fullmatch(says.format(re.escape(found[1])), reply):
                    return sort, int(found[1]) if found.groups() else 0
        return None, 0

    def pending_after(self, lines, name):
        """Returns how many areas are pending after lines."""
        reply = replies_in(self.run_lines([*lines, f"{name} drc count"]).out)[-1]
        found = re.fullmatch(rf"{name} count \d+ errors (\d+) pending", reply)
        return int(found[1]) if found else None

    def alone(self, said):
        """Yields the replies of the script without the lines that say memory, or with check steps in their place."""
        choices = [()]
        for at, (line, reply) in enumerate(said):
            sort, pending = self.said_of(line, reply)
            if sort != "catchup":
                continue
            if not pending:
                raise Failed("catching up was stopped with no area pending")
            choices = [(*steps, (at, count)) for steps in choices for count in range(MOST_STEPS)]
        for steps in choices:
            replies = self.alone_with(said, dict(steps))
            if replies is not None:
                yield replies

    def alone_with(self, said, steps):
        """Returns the replies with so many check steps in the place of each `drc catchup` that was stopped, or None
        where these don't leave as many areas as it says."""
        lines, added, shift = [], set(), []
        answers = dict(zip(self.script.replying, range(len(said))))
        for at, line in enumerate(self.script.lines):
            sort, pending, number = None, 0, answers.get(at)
            if number is not None:
                sort, pending = self.said_of(line, said[number][1])
            if sort == "catchup":
                name = line.split()[0]
                for _ in range(steps[number]):
                    added.add(len(lines))
                    lines.append(f"%step {name}")
                if not steps[number]:
                    lines.append("#")
                if self.pending_after(lines, name) != pending:
                    return None
                shift.append((len(lines), max(steps[number], 1) - 1))
            else:
                lines.append("#" if sort else line)
        replies, kept = replies_in(self.run_lines(lines).out), []
        for at, reply in zip(replying_in(lines), replies):
            if at in added:
                if not reply.endswith(" step done"):
                    return None
                continue
            moved = sum(count for end, count in shift if at >= end)
            kept.append(re.sub(r"\Aline (\d+)", lambda it, moved=moved: f"line {int(it[1]) - moved}", reply))
        return kept

    def new_messages(self, ran):
        """Returns the messages of a run after the usual ones, if it has these."""
        usual = self.usual.messages
        return ran.messages[len(usual) :] if ran.messages.startswith(usual) else None

    def judge_start(self, ran):
        """Returns what a run without a reply met, or fails."""
        for sort, says in {
            "start": r"magicd: memory\n",
            "tech": r"magicd: tech line \d+ fault 10 memory\n",
            "cell": r"magicd: cell \w+ line 0 fault 9 memory\n",
        }.items():
            if ran.status == 1 and re.fullmatch(says, self.new_messages(ran) or ran.messages):
                return [sort]
        raise Failed(f"no reply, status {ran.status}, and the messages {ran.messages!r}")

    def judge(self, ran):
        """Returns what the run met, or fails."""
        if not ran.out:
            return self.judge_start(ran)
        lines = self.new_messages(ran)
        replies = replies_in(ran.out)
        said = [(self.script.lines[at], reply) for at, reply in zip(self.script.replying, replies)]
        if len(replies) > len(self.script.replying):
            raise Failed("more replies than lines")
        says = [it for it in (self.said_of(*both)[0] for both in said) if it]
        kept = [reply for both, reply in zip(said, replies) if not self.said_of(*both)[0]]
        if not any(wanted[: len(kept)] == kept for wanted in self.alone(said)):
            raise Failed("the replies are no front of those of the alone runs:\n" + "\n".join(replies))
        whole = len(replies) == len(self.script.replying)
        if (ran.status, lines) != ((0, "") if whole else (1, "magicd: memory\n")):
            raise Failed(f"{len(replies)} replies, status {ran.status}, and the messages {ran.messages!r}")
        return says + ([] if whole else ["reply"]) or ["usual"]

    def is_usual(self, out):
        return out == self.usual.out

    def refuse(self, most, on):
        """Refuses each growth, or it and all later ones, and returns how many runs there were."""
        for n in itertools.count(1):
            try:
                ran = self.run_lines(self.script.lines, n, on)
                if not ran.refused:
                    if not self.is_usual(ran.out) or ran.status or ran.messages != self.usual.messages:
                        raise Failed("nothing was refused, and the output is another")
                    return n - 1
                if n > most:
                    return n - 1
                for it in self.judge(ran):
                    self.met[it] += 1
            except Failed as why:
                raise Failed(f"growth {n}{' and all later ones' if on else ''}: {why}") from None


class WorkersTrial(Trial):
    """A script with workers whose growths are refused. Which growth is the n-th varies from run to run."""

    def __init__(self, program, folder, script):
        super().__init__(program, folder, script)
        self.usual_said = self.by_line(self.replies)

    def by_line(self, replies):
        """Returns the reply to each `%open` and to each line of a session, by the line's place. The replies
        to the other lines must come first, in the order of the script, and then those of each session."""
        rest, said, groups = iter([*replies, None]), {}, {}
        reply = next(rest)
        for at in self.script.replying:
            words, name = self.script.lines[at].split(), name_in(self.script.lines[at])
            if words[0] in ("%step", "%close"):
                wanted = f"line {at + 1} fault 1 unknown command"
            elif words[0] != "%open":
                wanted = f"line {at + 1} fault 4 not open"
                if name in groups:
                    groups[name].append(at)
                    continue
            elif name in groups:
                wanted = f"{name} refused open 1 open already"
            elif reply == f"{name} refused open 4 memory":
                wanted = said[at] = reply
            else:
                groups[name] = [at]
                continue
            if reply != wanted:
                raise Failed(f"{reply!r} in the place of {wanted!r}")
            reply = next(rest)
        for at in itertools.chain(*groups.values()):
            said[at], reply = reply, next(rest, None)
        if None in said.values() or reply is not None:
            raise Failed("the sessions have fewer replies than lines, or more")
        return said

    def judge(self, ran):
        """Returns what the run met, or fails."""
        if not ran.out:
            return self.judge_start(ran)
        if ran.status or self.new_messages(ran) != "":
            raise Failed(f"replies, status {ran.status}, and the messages {ran.messages!r}")
        return self.judge_lines(self.by_line(replies_in(ran.out))) or ["usual"]

    def judge_lines(self, said):
        """Returns what lines met whose replies these are, or fails."""
        met, lost, stopped, unopened = [], {}, {}, set()
        for at, reply in sorted(said.items()):
            line, name = self.script.lines[at], name_in(self.script.lines[at])
            usual = self.usual_said.get(at, f"{name} opened")
            if reply == f"{name} opened":
                unopened.discard(name)
            elif name in unopened and not usual.startswith("line "):
                usual = f"line {at + 1} fault 4 not open"
            sort, pending = self.said_of(line, reply)
            if sort:
                met.append(sort)
                if sort == "catchup" and not pending:
                    raise Failed("catching up was stopped with no area pending")
                if sort == "open":
                    unopened.add(name)
                # Such a line is in no journal, and a look never is.
                lost[name] = lost.get(name, 0) + (sort not in ("open", "look"))
            elif line.startswith("%audit") and name not in unopened:
                count = int(usual.split()[2]) - lost.get(name, 0)
                usual = f"{name} audited {count}"
            elif line.endswith("drc count") and stopped.get(name):
                usual = reply if re.fullmatch(rf"{name} count \d+ errors \d+ pending", reply) else usual
            if not sort and reply != usual:
                raise Failed(f"{reply!r} in the place of {usual!r}")
            if line.endswith("drc catchup"):
                stopped[name] = bool(sort)
        return met


class LiveTrial(WorkersTrial):
    """A script whose lines are carried out as they come, and whose growths are refused."""

    def by_line(self, replies):
        """Returns the reply to each line that has one, by the line's place. Those of each name must be to the first of
        its lines."""
        said, others, lines = {}, {}, {}
        for reply in replies:
            if found := re.match(r"line (\d+) fault ", reply):
                if said.setdefault(int(found[1]) - 1, reply) is not reply:
                    raise Failed(f"{reply!r} twice")
            else:
                others.setdefault(reply.split()[0], []).append(reply)
        for at in self.script.replying:
            lines.setdefault(name_in(self.script.lines[at]), []).append(at)
        for name, places in lines.items():
            rest = iter(others.pop(name, []))
            for at in places:
                if at not in said and (reply := next(rest, None)) is not None:
                    said[at] = reply
            has_reply = [at in said for at in places]
            if next(rest, None) is not None or has_reply != sorted(has_reply, reverse=True):
                raise Failed(f"{name} has more replies than lines, or some of its lines have none")
        if others or not {*said} <= {*self.script.replying}:
            raise Failed("a reply to no line")
        return said

    def is_usual(self, out):
        return self.by_line(replies_in(out)) == self.usual_said

    def judge(self, ran):
        """Returns what the run met, or fails."""
        if not ran.out:
            return self.judge_start(ran)
        said = self.by_line(replies_in(ran.out))
        ends = [(1, "magicd: memory\n")]
        if len(said) == len(self.script.replying):
            ends.append((0, ""))
        if (ran.status, self.new_messages(ran)) not in ends:
            raise Failed(f"{len(said)} replies, status {ran.status}, and the messages {ran.messages!r}")
        return self.judge_lines(said) + ["reply"] * ran.status or ["usual"]
