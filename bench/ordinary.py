#!/usr/bin/env python3
"""Prints what a `report` takes of the program and of the ordinary program in bench/ordinary, and how many times as much the program takes: processor
time, summed over runs by turns, and the peak memory; or the instructions of one run, in millions. Called as
    bench/run ordinary [time|instructions]
    bench/run ordinary time|instructions FILE FACTION PASS
The campaigns are those of `bench/run floor time grown`, of 90 to 99,990 units, or the one in FILE, where PASS is the pass text of FACTION. Each program
has a copy of the file of its own. The bench ends if they print different reports. The program is the one that ./gm runs, or the one that ATL_GM names."""
import os, shutil, subprocess, sys, tempfile

sys.dont_write_bytecode = True

from benches import HERE, bench, instructions, peak, processor_seconds

closing = bench("closing")
PROGRAM = closing.PROGRAM
PACKAGES = "librust-toml-dev librust-serde-derive-dev libsqlite3-dev"
# runs of each program: the least, the most, and the seconds of both after which no more follow
LEAST_RUNS, MOST_RUNS, ENOUGH = 5, 200, 10
PEAKS = 20


def built(work):
    """The ordinary program, built from a copy of its folder."""
    source = os.path.join(work, "ordinary")
    shutil.copytree(os.path.join(HERE, "ordinary"), source)
    if subprocess.run(["cargo", "build", "--release", "--offline", "--quiet"], cwd=source).returncode != 0:
        sys.exit(f"ordinary: it can't be built; it needs cargo, and the packages {PACKAGES} of Debian")
    return os.path.join(source, "target", "release", "ordinary")


def by_turns(both):
    """The processor time of each of two commands in milliseconds, the mean of several runs, and how many runs each has."""
    sums, runs = [0, 0], 0
    while runs < MOST_RUNS and (runs < LEAST_RUNS or sum(sums) < ENOUGH):
        for at, words in enumerate(both):
            sums[at] += processor_seconds(words)
        runs += 1
    return *(took / runs * 1000 for took in sums), runs


def highest(words):
    """The peak memory in megabytes, by the run in which it was seen highest: a short run can end between two looks."""
    return max(peak(words) for _ in range(PEAKS)) / 1024


def print_time(title, both):
    ours, ordinary, runs = by_turns(both)
    memory = [highest(words) for words in both]
    print(
        f"report, {title}: {ours:.2f} ms, the ordinary program {ordinary:.2f} ms, {ours / ordinary:.2f} times, by {runs} runs of each; "
        f"{memory[0]:.1f} MB, the ordinary program {memory[1]:.1f} MB",
        flush=True,
    )


def print_instructions(title, both):
    ours, ordinary = map(instructions, both)
    print(f"report, {title}: {ours:.1f} million instructions, the ordinary program {ordinary:.1f}, {ours / ordinary:.2f} times", flush=True)


def answer(words):
    ended = subprocess.run(words, stdout=subprocess.PIPE)
    if ended.returncode != 0:
        sys.exit(f"status {ended.returncode} of {words}")
    return ended.stdout


def compare(print_figures, ordinary, title, base, faction, password):
    """Prints the figures of both programs over one campaign, after a first run of each."""
    both = []
    for path, program in (("ours.db", PROGRAM), ("ordinary.db", ordinary)):
        shutil.copy(base, path)
        both.append([program, "report", "--db", path, "--faction", faction, "--pass", password])
    if answer(both[0]) != answer(both[1]):
        sys.exit(f"ordinary: the programs print different reports, {title}")
    print_figures(title, both)


def compare_sizes(print_figures, ordinary):
    for regions, factions, units in closing.SIZES:
        base = closing.founded(f"{units}.db", regions, factions, units, closing.GROWN_MONTHS)
        compare(print_figures, ordinary, f"{units} units", base, "1", "pw")


def main():
    match sys.argv[1:]:
        case [] | ["time" | "instructions"]:
            given = None
        case ["time" | "instructions", path, faction, password]:
            given = os.path.abspath(path), faction, password
        case _:
            sys.exit("usage: bench/run ordinary [time|instructions], or bench/run ordinary time|instructions FILE FACTION PASS")
    print_figures = print_instructions if "instructions" in sys.argv[1:2] else print_time
    with tempfile.TemporaryDirectory() as work:
        ordinary = built(work)
        os.chdir(work)
        if given is None:
            compare_sizes(print_figures, ordinary)
        else:
            compare(print_figures, ordinary, os.path.basename(given[0]), *given)


if __name__ == "__main__":
    main()
