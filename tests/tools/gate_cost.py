#!/usr/bin/env python3
"""Runs the gate, and prints what its provers took. Called as

    tests/tools/gate_cost.py rt ci

Before and after the command it runs four `rt selftest` side by side: one S is the processor seconds of one of the eight
(docs/GATE.md, "What it costs"). After what the command prints come the lines of costs, each with `cost:` in front. They
have the processor seconds and the most memory of each crate's proof, tests and edits, the sums in seconds and in S, the
longest chain of crates that wait for one another, and the dearest functions. What rt itself takes isn't in the sums.
The command is sampled once a second, so each prover is counted up to a second short. The seconds of a function are
those on the clock, with the reading of what it uses for the first time. The status is the command's."""
import os
import re
import subprocess
import sys
import tempfile
import threading
from dataclasses import dataclass, field
from pathlib import Path

TICKS = os.sysconf("SC_CLK_TCK")
PAGE = os.sysconf("SC_PAGE_SIZE")
SELFTESTS = 4
# How many of the dearest functions are printed.
DEAREST = 30
# Where a prover writes a file for each module that it has checked, while it runs.
MODULES = "rattle-logic-built-locked-{pid}-*"
# What follows the name of a function in the name of a module.
PARTS = re.compile(
    r"\.(Answers|Carried|Code|Given|Goals|Invariants|Kinds|Layout|Lts|Met|Named|Paired|Proof|Reads|Statement|Symbol|"
    r"The[A-Z]\w*|Tie|View)\b.*"
)
# The fields of /proc/PID/stat that count, after the name in brackets.
PARENT, USER, SYSTEM, START, RESIDENT = 1, 11, 12, 19, 21
RT = "rt itself"


@dataclass
class Prover:
    """A process under the command: what it works on, its processor seconds so far, its most memory in bytes, and when
    it had checked each module, by the name of the module's file."""

    crate: str = RT
    task: str = ""
    seconds: float = 0.0
    memory: int = 0
    modules: dict[str, float] = field(default_factory=dict)


@dataclass
class Costs:
    """The processor seconds and the most memory by crate and task, and the seconds by crate and function."""

    seconds: dict[tuple[str, str], float] = field(default_factory=dict)
    memory: dict[tuple[str, str], int] = field(default_factory=dict)
    functions: dict[tuple[str, str], float] = field(default_factory=dict)

    def add(self, prover: Prover) -> None:
        key = prover.crate, prover.task
        self.seconds[key] = self.seconds.get(key, 0.0) + prover.seconds
        self.memory[key] = max(self.memory.get(key, 0), prover.memory)
        if prover.task in ("proof", "tests"):
            for function, seconds in of_functions(prover.crate, prover.modules).items():
                self.functions[prover.crate, function] = self.functions.get((prover.crate, function), 0.0) + seconds

    def of_task(self, task: str) -> float:
        return sum(seconds for (_, kind), seconds in self.seconds.items() if kind == task)


def of_functions(crate: str, modules: dict[str, float]) -> dict[str, float]:
    """The seconds that each function or file of laws took: the distance of each module to the one before it."""
    taken: dict[str, float] = {}
    by_time = sorted(modules, key=lambda it: modules[it])
    for before, module in zip(by_time, by_time[1:]):
        found = re.fullmatch(rf"Rattle-{crate}-(?:proofs|specs)\.(.*)\.oantt", module)
        if found:
            function = PARTS.sub("", found[1])
            taken[function] = taken.get(function, 0.0) + modules[module] - modules[before]
    return taken


def note_modules(pid: int, modules: dict[str, float]) -> None:
    """Notes the modules that a prover has checked since the last call."""
    for folder in Path(tempfile.gettempdir()).glob(MODULES.format(pid=pid)):
        try:
            for module in os.scandir(folder):
                if module.name not in modules:
                    modules[module.name] = module.stat().st_mtime
        except OSError:
            pass  # the prover has ended, or puts a file in place


def of_process(pid: int, name: str) -> bytes:
    """A file of /proc; empty if the process has ended."""
    try:
        return Path(f"/proc/{pid}/{name}").read_bytes()
    except OSError:
        return b""


def stat_of(pid: int) -> list[int]:
    """The numbers of /proc/PID/stat after the name, with 0 for the letter of the state, which comes first."""
    text = of_process(pid, "stat")
    return [0, *map(int, text[text.rfind(b")") + 2 :].split()[1:])] if text else []


def is_of_tests(crate: str) -> bool:
    return crate.endswith("_tests") or crate.startswith("atl_test_")


def task_of(pid: int) -> tuple[str, str]:
    """The crate that a prover works on, and whether it is on its proof, its tests or its edits."""
    words = of_process(pid, "cmdline").decode(errors="replace").split("\0")
    if "--crate-name" not in words[:-1]:
        return RT, ""
    crate = words[words.index("--crate-name") + 1]
    try:
        folder = os.readlink(f"/proc/{pid}/cwd")
    except OSError:
        folder = ""
    if "/rt-edit-" in folder:
        return crate, "edits"
    return crate, "tests" if is_of_tests(crate) else "proof"


def is_below(pid: int, root: int, parents: dict[int, int]) -> bool:
    # Processes end and begin while /proc is read, so the way up may have no end.
    for _ in parents:
        if pid == root or pid not in parents:
            break
        pid = parents[pid]
    return pid == root


def sample(root: int, seen: dict[tuple[int, int], Prover]) -> None:
    """Notes what each process under `root` has taken by now. A process is known by its number and its start."""
    stats = {int(name): stat_of(int(name)) for name in os.listdir("/proc") if name.isdigit()}
    stats = {pid: stat for pid, stat in stats.items() if stat}
    parents = {pid: stat[PARENT] for pid, stat in stats.items()}
    for pid, stat in stats.items():
        if not is_below(pid, root, parents):
            continue
        prover = seen.setdefault((pid, stat[START]), Prover())
        if prover.crate == RT:
            prover.crate, prover.task = task_of(pid)
        prover.seconds = (stat[USER] + stat[SYSTEM]) / TICKS
        prover.memory = max(prover.memory, stat[RESIDENT] * PAGE)
        note_modules(pid, prover.modules)


def watched(command: list[str]) -> tuple[int, Costs]:
    """Runs a command; its status, and what the provers under it took."""
    seen: dict[tuple[int, int], Prover] = {}
    ended = threading.Event()
    running = subprocess.Popen(command)

    def watch() -> None:
        while not ended.wait(1):
            sample(running.pid, seen)

    watcher = threading.Thread(target=watch, daemon=True)
    watcher.start()
    status = running.wait()
    ended.set()
    watcher.join()
    costs = Costs()
    for prover in seen.values():
        costs.add(prover)
    return status, costs


def one_s() -> float:
    """The processor seconds of one `rt selftest` while `SELFTESTS` of them run side by side."""
    # RT_JOBS would change what a selftest takes.
    plain = {name: value for name, value in os.environ.items() if name != "RT_JOBS"}
    running = [subprocess.Popen(["rt", "selftest"], stdout=subprocess.DEVNULL, env=plain) for _ in range(SELFTESTS)]
    taken = 0.0
    for it in running:
        _, status, usage = os.wait4(it.pid, 0)
        it.returncode = os.waitstatus_to_exitcode(status)
        taken += usage.ru_utime + usage.ru_stime
    return taken / SELFTESTS


def longest_chain(crates: str, costs: Costs) -> tuple[float, list[str]]:
    """The seconds and the names of the longest chain of proofs, where a crate waits for those that its line names."""
    best: dict[str, tuple[float, list[str]]] = {}
    for line in crates.splitlines():
        name, colon, below = line.partition(":")
        if not colon or name.startswith("#"):
            continue
        waits: tuple[float, list[str]] = max((best[it] for it in below.split() if it in best), default=(0.0, []))
        best[name] = waits[0] + costs.seconds.get((name, "proof"), 0.0), [*waits[1], name]
    return max(best.values(), default=(0.0, []))


def report(costs: Costs, unit: float, crates: str) -> list[str]:
    """The lines of costs."""
    lines = [f"one S is {unit:.1f} s"]
    for key in sorted(costs.seconds, key=lambda it: -costs.seconds[it]):
        crate, task = key
        lines.append(f"{costs.seconds[key]:8.0f} s {costs.memory[key] / 1e9:6.2f} GB  {crate} {task}".rstrip())
    sums = {task: costs.of_task(task) for task in ("proof", "tests", "edits")}
    whole = sum(sums.values())
    parts = ", ".join(f"{task} {seconds:.0f} s" for task, seconds in sums.items())
    chain, names = longest_chain(crates, costs)
    lines.append(f"{parts}, all {whole:.0f} s or {whole / unit:.1f} S")
    lines.append(f"the longest chain {chain:.0f} s or {chain / unit:.1f} S: {', '.join(names)}")
    for key in sorted(costs.functions, key=lambda it: -costs.functions[it])[:DEAREST]:
        lines.append(f"{costs.functions[key]:8.1f} s on the clock  {': '.join(key)}")
    return lines


def main() -> int:
    command = sys.argv[1:]
    if not command or re.fullmatch(r"-h|--help", command[0]):
        print(__doc__)
        return 0 if command else 2
    try:
        before = one_s()
        status, costs = watched(command)
        unit = (before + one_s()) / 2
    except FileNotFoundError as error:
        print(f"gate_cost: {error.filename} isn't there")
        return 127
    for line in report(costs, unit, Path("crates.txt").read_text(encoding="utf-8")):
        print(f"cost: {line}")
    return status


if __name__ == "__main__":
    sys.exit(main())
