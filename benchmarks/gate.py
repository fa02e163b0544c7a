"""Runs the gate with the time at each line, and says what each crate cost.

usage: gate.py TOP run [WORD ..]    runs `rt ci --anew`, or `rt ci WORD ..`, at TOP
       gate.py TOP LOG              prints the table of such a log

A line of a log has the seconds since the start. A line `process KIND CRATE BEGAN SECONDS EDIT` stands for a process of the prover that ended: KIND is proof, tests
or edits, BEGAN the seconds since the start, SECONDS what it took of a processor, EDIT the number of the edit by its name, from 0, or `seed` for the check of
the crate that its edits begin with, or `-`.
"""
import os
import re
import subprocess
import sys
import threading
import time

TICKS = os.sysconf("SC_CLK_TCK")
# An edit that takes more seconds is named.
DEAR = 60


def stat(number):
    """The parent of a process and the processor seconds of it and of its children that ended."""
    with open(f"/proc/{number}/stat") as it:
        fields = it.read().rpartition(")")[2].split()
    return int(fields[1]), sum(map(int, fields[11:15])) / TICKS


def provers(root):
    """The processes of the prover below a process: their crates, kinds and processor seconds."""
    parents, seconds = {}, {}
    for name in filter(str.isdigit, os.listdir("/proc")):
        try:
            parents[int(name)], seconds[int(name)] = stat(name)
        except (OSError, ValueError):
            pass

    def is_below(number):
        while number in parents and number != root:
            number = parents[number]
        return number == root

    for number in parents:
        try:
            if is_below(number):
                with open(f"/proc/{number}/cmdline") as it:
                    words = it.read().split("\0")
                place = os.readlink(f"/proc/{number}/cwd")
                if os.path.basename(words[0]) == "rattle" and "--crate-name" in words:
                    kind = "edits" if "/rt-edit-" in place else "tests" if "--test" in words else "proof"
                    edit = os.path.basename(words[words.index("--incremental") + 1]) if kind == "edits" and "--incremental" in words else "-"
                    yield number, words[words.index("--crate-name") + 1], kind, seconds[number], edit
        except (OSError, ValueError):
            pass


def run(top, words):
    begin = time.monotonic()
    since = lambda: time.monotonic() - begin
    ran = subprocess.Popen(["rt", "ci", *words], cwd=top, stdin=subprocess.DEVNULL, stdout=subprocess.PIPE, stderr=subprocess.STDOUT, text=True, errors="replace", env={**os.environ, "PYTHONUNBUFFERED": "1"})
    alive, printing = {}, threading.Lock()

    def say(text):
        with printing:
            print(f"{since():.1f} {text}", flush=True)

    def watch():
        while ran.poll() is None:
            seen = set()
            for number, crate, kind, seconds, edit in provers(ran.pid):
                seen.add(number)
                alive[number] = kind, crate, alive.get(number, (0, 0, since()))[2], seconds, edit
            for number in [it for it in alive if it not in seen]:
                kind, crate, began, seconds, edit = alive.pop(number)
                say(f"process {kind} {crate} {began:.1f} {seconds:.1f} {edit}")
            time.sleep(0.2)
        for kind, crate, began, seconds, edit in alive.values():
            say(f"process {kind} {crate} {began:.1f} {seconds:.1f} {edit}")

    watcher = threading.Thread(target=watch)
    watcher.start()
    for line in ran.stdout:
        say(line.rstrip("\n"))
    ran.wait()
    watcher.join()
    sys.exit(ran.returncode)


def libraries(top):
    """What each crate stands on, by crates.txt."""
    with open(f"{top}/crates.txt") as it:
        lines = [line.partition("#")[0].split(":") for line in it]
    below = {pair[0].split()[0]: pair[1].split() for pair in lines if len(pair) == 2}
    return {name: [it for it in of if it in below] for name, of in below.items()}


def longest(below, cost):
    """The chain of crates, each of which stands on the one before it, that costs most."""
    chains = {}

    def chain(name):
        if name not in chains:
            before = max((chain(it) for it in below[name]), default=(0, []))
            chains[name] = before[0] + cost.get(name, 0), [*before[1], name]
        return chains[name]

    return max(chain(name) for name in below)


def edit_of(top, crate, number):
    names = sorted(it for it in os.listdir(f"{top}/crates/{crate}/must-fail") if it.endswith(".edit"))
    return names[number] if number < len(names) else "?"


def table(top, log):
    costs, edits, dear = {}, {}, []
    last = 0.0
    with open(log, errors="replace") as it:
        for line in it:
            at = re.match(r"(\d+\.\d) (.*)", line)
            if not at:
                continue
            last = float(at[1])
            said = at[2].split()
            if said[:1] == ["process"] and len(said) == 6:
                row = costs.setdefault(said[2], {"proof": 0.0, "tests": 0.0, "edits": 0.0})
                row[said[1]] += float(said[4])
                if said[5].isdigit() and float(said[4]) > DEAR:
                    dear.append((float(said[4]), said[2], edit_of(top, said[2], int(said[5]))))
            elif said[:2] == ["rt:", "must-fail"] and len(said) > 2:
                name = said[2].partition("/")[0]
                edits[name] = edits.get(name, 0) + 1
    total = lambda row: sum(row.values())
    print("| Crate | Proof | Tests | Edits | Number of edits | All |")
    print("|---|---|---|---|---|---|")
    for name, row in sorted(costs.items(), key=lambda it: -total(it[1])):
        print(f"| `{name}` | {row['proof']:.0f} | {row['tests']:.0f} | {row['edits']:.0f} | {edits.get(name, 0)} | {total(row):.0f} |")
    sums = [sum(row[kind] for row in costs.values()) for kind in ("proof", "tests", "edits")]
    print(f"| all | {sums[0]:.0f} | {sums[1]:.0f} | {sums[2]:.0f} | {sum(edits.values())} | {sum(sums):.0f} |")
    for seconds, crate, edit in sorted(dear, reverse=True):
        print(f"\nAn edit of over {DEAR} seconds: {crate}/{edit}, {seconds:.0f}.")
    cost, names = longest(libraries(top), {name: row["proof"] for name, row in costs.items()})
    print(f"\n{last / 60:.0f} minutes from the start to the last line. The longest chain of proofs takes {cost / 60:.0f} minutes: {', '.join(names)}.")


if __name__ == "__main__":
    place, words = sys.argv[1], sys.argv[2:]
    if words[:1] == ["run"]:
        run(place, words[1:] or ["--anew"])
    elif len(words) == 1:
        table(place, words[0])
    else:
        sys.exit(__doc__)
