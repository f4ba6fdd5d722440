"""Tests of tools/estimate.awk: on a real build, which builds/ keeps, and on builds that are made up, in which the crates of
this repository, each of which takes up to half as long again as its size says, or up to two fifths less, are proved side by
side by a clock that doesn't wait."""
import heapq
import pathlib
import random
import subprocess

TOP = pathlib.Path(__file__).resolve().parent.parent.parent
# The processors, the load of others beside them, and the units of work that each processor does in a second.
MACHINES = [(4, 0, 1.5), (4, 0, 0.9), (4, 4, 0.6), (4, 12, 0.3), (2, 0, 1.5), (2, 2, 0.6)]


def crates():
    """The crates that the program depends on and itself, the lowest first, each with its libraries here."""
    lines = [line.split(":") for line in (TOP / "crates.txt").read_text().splitlines() if ":" in line and line[0] != "#"]
    libraries = {name.split()[0]: below.split() for name, below in lines}
    found = {}

    def visit(name):
        if name in libraries and name not in found:
            for below in libraries[name]:
                visit(below)
            found[name] = [below for below in libraries[name] if below in libraries]

    visit("sygus")
    return found


def size(name):
    return sum(path.stat().st_size for path in (TOP / "crates" / name / "src").rglob("*.rt"))


def build(below, sizes, machine, kept, seed):
    """When each crate that isn't kept is done, where those that the longest chain waits for go first."""
    processors, _, part = machine
    chance = random.Random(seed)
    takes = {name: (12 + sizes[name] / 210) * chance.uniform(0.6, 1.5) / part for name in below}
    takes["sygus"] = 360 / part
    chain = {}
    for name in reversed(below):
        chain[name] = takes[name] + max((chain[it] for it in chain if name in below[it]), default=0)
    now, running, done = 0.0, [], dict.fromkeys(kept, 0)
    rest = sorted((name for name in below if name not in kept), key=lambda name: -chain[name])
    while len(done) < len(below):
        for name in [name for name in rest if done.keys() >= set(below[name])][:processors - len(running)]:
            rest.remove(name)
            heapq.heappush(running, (now + takes[name], name))
        now, name = heapq.heappop(running)
        done[name] = now
    return {name: second for name, second in done.items() if name not in kept}


def estimate(crates, told, processors, seconds):
    """What tools/estimate.awk says of lines of crates and of what was told so far: the minutes that are left, and the percent
    that are done."""
    words = ["-v", f"processors={processors}", "-v", f"seconds={seconds}"]
    command = ["awk", *words, "-f", TOP / "tools" / "estimate.awk"]
    ended = subprocess.run(command, input="\n".join([*crates, *told]) + "\n", capture_output=True, text=True)
    minutes, percent = ended.stdout.split()
    return int(minutes), int(percent)


def minutes_left(*words):
    return estimate(*words)[0]


def lines_of(below, sizes):
    return [f"{name}: {sizes[name]} {' '.join(below[name])}" for name in below]


def worst(crates, told, processors):
    """How far the end is from where it is said to be, at worst, as a part of the whole; and how much of the whole is over when
    it is said first. It is said each time that a crate is done, once a third of the work is; here at each fortieth of the time."""
    end = max(second for second, line in told if "proved" in line)
    off, first = 0, 1
    for part in range(1, 40):
        now = max((second for second, line in told if second <= part * end / 40 and "load" not in line), default=0)
        left, percent = estimate(crates, [line for second, line in sorted(told) if second <= now], processors, int(now))
        if percent >= 33:
            off, first = max(off, abs(now + 60 * left - end) / end), min(first, now / end)
    return off, first


def made_up(below, sizes, machine, kept):
    """How far the estimates of three builds that are made up are off, and when they begin."""
    processors, load, _ = machine
    for seed in range(3):
        done = build(below, sizes, machine, kept, seed)
        told = [(second, f"{name} proved {second:.0f}") for name, second in done.items()]
        told += [(0, f"{name} kept 0") for name in kept]
        told += [(at, f"load {at} {load + processors}") for at in range(0, int(max(done.values())), 15)]
        yield worst(lines_of(below, sizes), told, processors)


def real(path):
    """How far the estimates of a build that is kept are off, and when they begin: its crates, a blank line, and what was told
    in each second. While the first tenth of it was done the machine was idle, and then others took up to seven eighths of it."""
    crates, _, told = path.read_text().partition("\n\n")
    told = [(int(line.split()[-1 if "load" not in line else 1]), line) for line in told.splitlines()]
    return worst(crates.splitlines(), told, 4)


def tests():
    below = crates()
    sizes = {name: size(name) for name in below}
    names = list(below)
    for machine in MACHINES:
        for kept in ([], names[:len(names) // 2]):
            off, first = (max(it) for it in zip(*made_up(below, sizes, machine, kept)))
            said = f"on {machine}, {len(kept)} kept (off by {off:.2f}, from {first:.2f} on)"
            yield f"estimate: within a third, {said}", off <= 1 / 3 and first <= 1 / 2
    for path in (TOP / "tools" / "tests" / "builds").glob("*.txt"):
        off, first = real(path)
        yield f"estimate: within a third of {path.name} (off by {off:.2f}, from {first:.2f} on)", off <= 1 / 3 and first <= 1 / 2
    lines = lines_of(below, sizes)
    first = minutes_left(lines, [], 4, 0)
    yield "estimate: less than an hour and a half from nothing", 20 < first < 90
    busy = minutes_left(lines, ["load 0 8.0"], 4, 0)
    yield "estimate: twice as long on a machine of which half is free", 1.9 * first < busy < 2.1 * first
    every = [f"{name} proved {20 * place}" for place, name in enumerate(names)]
    yield "estimate: nothing is left at the end", estimate(lines, every, 4, 3000) == (0, 100)
    kept = [f"{name} kept 5" for name in names[:-3]]
    left, percent = estimate(lines, kept, 4, 5)
    yield "estimate: what is kept isn't proved again", left < first / 2 and percent == 0
    slow = [f"{names[0]} proved 100"]
    both = minutes_left(lines, [*slow, *kept[1:]], 4, 100), minutes_left(lines, kept, 4, 5)
    yield "estimate: what is kept tells nothing of the pace", both[0] >= both[1]
