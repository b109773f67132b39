"""Judges runs in which growths of memory are refused. Called by bench/growths.sh, which says what is tried."""
import sys

from growth_calls import FRUGAL, MAPS, ROWS, SHORT, try_frugal, try_row, try_setup
from growth_runs import Failed
from growth_scripts import scripts
from growth_trials import SAYS


def main(words):
    short = "--short" in words
    program, growths, folder = [it for it in words if it != "--short"]
    failures, unmet = 0, {*SAYS, "start", "tech", "cell", "reply"}

    def tried(what, call):
        nonlocal failures
        try:
            call()
        except Failed as why:
            failures += 1
            print(f"failed: {what}: {why}")

    print(f"{'call':24} {'growths':>8}  answers")
    for row in ROWS:

        def try_it(row=row):
            if not short:
                try_setup(growths, folder, row)
            count, met = try_row(growths, folder, row, SHORT if short else 10**6)
            said = ", ".join(f"{answer}: {times}" for answer, times in met.items() if times)
            print(f"{row:24} {count:8}  {said}")
            if not count:
                raise Failed("it asks for no growth")
            if not short and met["usual"] < MAPS.get(row, 0):
                raise Failed("it makes no maps")

        tried(row, try_it)
    for row in FRUGAL:

        def try_it(row=row):
            try_frugal(growths, folder, row)
            print(f"{row:24} {0:8}  all growths refused, and the usual answers")

        tried(row, try_it)
    sorts = ["start", "tech", "cell", *SAYS, "reply", "usual"]
    print()
    print(f"{'script':24} {'growths':>8}  " + " ".join(f"{it:>8}" for it in sorts))
    for script in scripts(folder)[: 2 if short else None]:
        for on in (False, True):

            def try_it(script=script, on=on):
                trial = script.trial(program, folder, script)
                count = trial.refuse(10**6, on)
                name = f"{script.name}{', and later' if on else ''}"
                print(f"{name:24} {count:8}  " + " ".join(f"{trial.met[it]:8}" for it in sorts))
                unmet.difference_update(it for it, times in trial.met.items() if times)

            tried(script.name, try_it)
    if unmet:
        failures += 1
        print(f"failed: no script met {', '.join(sorted(unmet))}")
    print(f"{failures} failed" if failures else "all runs ended as they must")
    return 1 if failures else 0


if __name__ == "__main__":
    sys.exit(main(sys.argv[1:]))
