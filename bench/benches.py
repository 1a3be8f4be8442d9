"""Functions that the Python benches share: they load another bench, run the program, and measure time, instructions and memory."""
import importlib.machinery, importlib.util, os, re, subprocess, sys, tempfile, time

HERE = os.path.dirname(os.path.abspath(__file__))


def program():
    """The path of the program that gm runs, or the end of the bench where there is none."""
    found = subprocess.run([os.path.join(HERE, "..", "gm"), "path"], stdout=subprocess.PIPE, text=True)
    return found.stdout.strip() or sys.exit(1)


def bench(name):
    """Another bench of this folder, as a module."""
    loader = importlib.machinery.SourceFileLoader(name, os.path.join(HERE, name))
    module = importlib.util.module_from_spec(importlib.util.spec_from_loader(name, loader))
    loader.exec_module(module)
    return module


def started(words):
    return subprocess.Popen(words, stdout=subprocess.DEVNULL)


def confirm(process, words):
    if process.wait() != 0:
        sys.exit(f"status {process.returncode} of {words}")


def seconds(words):
    """The seconds of a run."""
    begin = time.perf_counter()
    process = started(words)
    confirm(process, words)
    return time.perf_counter() - begin


def processor_seconds(words):
    """The processor time of a run, of the program itself and of the system for it."""
    process = started(words)
    _, status, usage = os.wait4(process.pid, 0)
    process.returncode = os.waitstatus_to_exitcode(status)
    confirm(process, words)
    return usage.ru_utime + usage.ru_stime


def instructions(words):
    """The instructions of a run, in millions, by valgrind's callgrind, which other work on the machine doesn't change."""
    with tempfile.NamedTemporaryFile() as out:
        run = ["valgrind", "--tool=callgrind", f"--callgrind-out-file={out.name}", *words]
        ended = subprocess.run(run, stdout=subprocess.DEVNULL, stderr=subprocess.PIPE, text=True)
    if ended.returncode != 0:
        sys.exit(f"status {ended.returncode} of {words}")
    return int(re.search(r"Collected : (\d+)", ended.stderr)[1]) / 1e6


def peak_now(process):
    """The peak memory up to now in kilobytes, while the process runs."""
    try:
        with open(f"/proc/{process.pid}/status") as status:
            return next((int(line.split()[1]) for line in status if line.startswith("VmHWM:")), 0)
    except (FileNotFoundError, ProcessLookupError):
        return 0


def peak(words):
    """The peak memory of a run in kilobytes. It is asked for again and again, as what the system tells at the end counts this script as well."""
    process = started(words)
    most = 0
    while process.poll() is None:
        most = max(most, peak_now(process))
    confirm(process, words)
    return most
