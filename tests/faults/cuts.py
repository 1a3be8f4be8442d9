#!/usr/bin/env python3
"""Simulates power cuts during each command that writes, and kills the program while it serves and while it recovers.
Each time the file must hold the campaign before the command or the one after it, and never a third. All rows are
compared, as SQLite reads them on one copy, and as the program leaves them on another. Called as
    tests/faults/cuts.py [TIMES [SEED]]
it tries TIMES as much as by default (1), with more factions, and chooses by SEED (1). It takes about a minute once the
program is built, wants strace, and ends with 'cuts: all as expected'.

tests/faults/cut_disk.py says what a power cut leaves.
"""
import os, random, re, shutil, socket, sqlite3, subprocess, sys, tempfile, threading, time
from pathlib import Path

sys.dont_write_bytecode = True
TOP = Path(__file__).resolve().parents[2]
sys.path.insert(0, str(TOP))

from cut_disk import Failed, Record, calls_in, path_of, put_files, read_files, recording, states, strace
from tests.tools.ports import free_port

PROGRAM = subprocess.run([TOP / "gm", "path"], stdout=subprocess.PIPE, text=True).stdout.strip()
ISLE, SMALL = (str(TOP / "worlds" / name) for name in ("isle.toml", "small.toml"))
OLD = str(TOP / "tests/old/trial.db")
SEED = "5"
NO_FILES = {"db": None, "wal": None}

# What TIMES multiplies: the factions of the campaign, up to MOST_FACTIONS; the states of the power cuts of each
# command, under `serve` and in recoveries; the kills of recoveries and of `serve`.
FACTIONS, MOST_FACTIONS = 8, 80
CUTS, SERVED, AGAIN, KILLS, SERVES = 60, 60, 40, 40, 12

# Factions that are played for much longer starve.
LAST_MONTH = 20

REPORT = ("report", "--faction", "1", "--pass", "pw")
BOOKS = ("books",)


# ---- the program, and SQLite


def command(words, folder):
    return [PROGRAM, *words, "--db", path_of(folder, "db")]


def run(words, folder):
    """The program's status, output and error line."""
    done = subprocess.run(command(words, folder), capture_output=True)
    return done.returncode, done.stdout, done.stderr


def rows_in(path):
    """All that SQLite finds in a database, whose file it may change."""
    connection = sqlite3.connect(path)
    try:
        whole = connection.execute("PRAGMA integrity_check").fetchone()[0]
        if whole != "ok":
            raise Failed(f"SQLite finds damage: {whole}")
        return "\n".join(connection.iterdump())
    finally:
        connection.close()


class Work:
    """Folders: one in which the program runs, one in which SQLite reads, and one for `serve`."""

    def __init__(self, root):
        self.root, self.trace = root, os.path.join(root, "trace")
        self.run, self.read, self.served = (os.path.join(root, name) for name in ("run", "read", "served"))
        for folder in (self.run, self.read, self.served):
            os.mkdir(folder)

    def rows(self, files):
        """What SQLite finds in a copy of these files; None where it finds no database."""
        put_files(self.read, files)
        try:
            return rows_in(path_of(self.read, "db"))
        except sqlite3.DatabaseError:
            return None

    def done(self, words, files):
        """The files that a command leaves of these."""
        put_files(self.run, files)
        status, _, error = run(words, self.run)
        if status != 0:
            raise Failed(f"{words[0]} is refused: {error.decode()}")
        return read_files(self.run)

    def recorded(self, words, files):
        """What a command does to a copy of these files."""
        put_files(self.run, files)
        subprocess.run([*recording(self.trace), *command(words, self.run)], capture_output=True)
        return Record(self.trace, self.run).events

    def written(self, name, text):
        path = os.path.join(self.root, name)
        with open(path, "w") as out:
            out.write(text)
        return path


class Campaign:
    """The rows of a campaign's files, and what the program answers to a question."""

    def __init__(self, work, files, question):
        self.files, self.rows = files, work.rows(files)
        put_files(work.run, files)
        self.answer = run(question, work.run)


def at(where, check):
    """What a check finds, or where it fails."""
    try:
        return check()
    except Failed as failed:
        raise Failed(f"{where}: {failed}") from None


def judged(work, files, campaigns, question):
    """Which of the campaigns the files hold, as SQLite reads them, and as the program answers and leaves them."""
    rows = work.rows(files)
    put_files(work.run, files)
    answer = run(question, work.run)
    left = work.rows(read_files(work.run))
    for place, campaign in enumerate(campaigns):
        if (campaign.rows, campaign.answer) == (left, answer):
            if rows != left:
                raise Failed("SQLite reads another campaign than the program")
            return place
    raise Failed(f"the program finds a third campaign: status {answer[0]}, {answer[2].decode().strip()}")


# ---- the campaign that is played


def mailing(faction, month):
    """Orders by which a month changes rows of many tables."""
    return (
        f'#ATLANTIS {faction} pw\nUNIT {faction}\nFORM 1\nRECRUIT 2\nNAME UNIT "Scouts {month}"\nEND\n'
        f'PAY NEW 1 150\nGUARD 1\nNAME FACTION "House {faction} of month {month}"\nSTUDY observation\n'
    )


def letter(faction, name, size):
    """A mailing of about this size, whose one order costs nothing."""
    return f'#ATLANTIS {faction} pw\nUNIT {faction}\nNAME UNIT "{name}"\n; ' + "x" * size + "\n"


def joining(name):
    return ("join", "--name", name, "--pass", "pw", "--seed", SEED)


def sending(faction, path):
    return ("mail", "--faction", str(faction), "--pass", "pw", "--file", path)


def closing(month):
    return ("close", "--month", str(month), "--pass", "gm", "--seed", SEED)


FOUNDING = ("found", "--world", ISLE, "--pass", "gm")


def played(work, factions):
    """A campaign after a month, in which each faction has sent a mailing for the next."""
    files = work.done(FOUNDING, NO_FILES)
    for faction in range(1, factions + 1):
        files = work.done(joining(f"Faction {faction}"), files)
    for month in (1, 2):
        if month == 2:
            files = work.done(closing(1), files)
        for faction in range(1, factions + 1):
            files = work.done(sending(faction, work.written("mailing", mailing(faction, month))), files)
    return files


def commands(work, files):
    """Each command that writes over a campaign: its words, and the files that it begins with."""
    new = work.written("new", mailing(1, 3))
    with open(OLD, "rb") as old:
        first_format = {"db": old.read(), "wal": None}
    return [
        (joining("Last"), files),
        (sending(1, new), files),
        (closing(2), files),
        (("upgrade", "--world", SMALL), first_format),
    ]


# ---- power cuts of commands


def cut_command(work, words, files, count, dice):
    """The numbers of power cuts of a command that leave the campaign before it and the one after it; and the states
    from which the program has to recover, each with its campaign and which of the two it is."""
    events = work.recorded(words, files)
    campaigns = [Campaign(work, files, REPORT), Campaign(work, work.done(words, files), REPORT)]
    if campaigns[0].rows == campaigns[1].rows:
        raise Failed(f"{words[0]} changes nothing")
    counts, logs = [0, 0], []
    for state in states(files, events, count, dice):

        def check():
            place = judged(work, state.files, campaigns, REPORT)
            if state.answers and place == 0:
                raise Failed("the command has answered, and is lost")
            return place

        place = at(f"{words[0]}, {state.where}", check)
        counts[place] += 1
        if len(state.files["wal"] or b"") > 41:
            logs.append((state.files, campaigns[place], place))
    return counts, logs


NOTHING = "BEGIN TRANSACTION;\nCOMMIT;"


def judged_founding(work, files, founded):
    """Whether the files that a founding left hold the campaign (1), or nothing, and the program founds it there (0)."""
    rows = work.rows(files)
    if rows == founded.rows:
        judged(work, files, [founded], BOOKS)
        return 1
    if rows not in (None, NOTHING):
        raise Failed("SQLite finds a part of the campaign")
    put_files(work.run, files)
    if run(BOOKS, work.run)[0] != 1:
        raise Failed("the program finds a campaign, and SQLite none")
    if work.rows(work.done(FOUNDING, files)) != founded.rows:
        raise Failed("the program founds another campaign")
    return 0


def cut_founding(work, count, dice):
    events = work.recorded(FOUNDING, NO_FILES)
    founded = Campaign(work, work.done(FOUNDING, NO_FILES), BOOKS)
    counts = [0, 0]
    for state in states(NO_FILES, events, count, dice):
        place = at(f"found, {state.where}", lambda: judged_founding(work, state.files, founded))
        if state.answers and place == 0:
            raise Failed(f"found, {state.where}: the command has answered, and is lost")
        counts[place] += 1
    return counts


# ---- recoveries: each finds the campaign that the first one found


def shared(count, things, share):
    """As many of the things as it takes for a count, each with its share of it."""
    some = things[: max(1, count // share)]
    return [(thing, count // len(some) + (place < count % len(some))) for place, thing in enumerate(some)]


def cut_recoveries(work, logs, count, dice):
    counts = [0, 0]
    for (files, campaign, place), share in shared(count, dice.sample(logs, len(logs)), 4):
        for state in states(files, work.recorded(REPORT, files), share, dice):
            at(f"a recovery, {state.where}", lambda: judged(work, state.files, [campaign], REPORT))
            counts[place] += 1
    return counts


def kill_recoveries(work, logs, count, dice):
    """Each is killed at one of its system calls."""
    counts = [0, 0]
    for (files, campaign, place), share in shared(count, dice.sample(logs, len(logs)), 8):
        put_files(work.run, files)
        subprocess.run([*strace(work.trace), *command(REPORT, work.run)], capture_output=True)
        calls = calls_in(work.trace)
        stops = [(call, calls[: last + 1].count(call)) for last, call in enumerate(calls) if "exit" not in call]
        for call, number in dice.sample(stops, min(share, len(stops))):
            put_files(work.run, files)
            kill = strace(work.trace, "-e", f"inject={call}:signal=KILL:when={number}")
            subprocess.run([*kill, *command(REPORT, work.run)], capture_output=True)
            left = read_files(work.run)
            at(f"a recovery, killed at call {number} of {call}", lambda: judged(work, left, [campaign], REPORT))
            counts[place] += 1
    return counts


# ---- serve


class Request:
    """A request to `serve`, and the subcommand that does the same."""

    def __init__(self, target, words, body, secret=None):
        head = f"POST {target} HTTP/1.1\r\nHost: x\r\nContent-Length: {len(body)}\r\n"
        head += f"Atlantis-Pass: {secret}\r\n" if secret else ""
        self.bytes, self.words = (head + "\r\n" + body).encode(), words


def standing(work, files):
    """How many factions a campaign has, and the month last closed."""
    put_files(work.read, files)
    connection = sqlite3.connect(path_of(work.read, "db"))
    found = connection.execute("SELECT (SELECT count(*) FROM faction), month FROM campaign").fetchone()
    connection.close()
    return found


def requests(work, files, factions, count, dice):
    """Requests of all three kinds that the campaign in these files takes; mailings are of its first factions."""
    members, month = standing(work, files)
    kinds = ["join", "mail", "close"]
    kinds += dice.choices(kinds, (4, 5, 1), k=count - len(kinds))
    dice.shuffle(kinds)
    made = []
    for number, kind in enumerate(kinds):
        if kind == "join":
            members += 1
            name = f"Guest {members}"
            made.append(Request("/join", joining(name), f'{{"name":"{name}","pass":"pw"}}'))
        elif kind == "mail":
            faction = dice.randrange(1, factions + 1)
            size = dice.choice((10, 3000, 40000)) + dice.randrange(100)
            text = letter(faction, f"Number {number} of month {month}", size)
            path = work.written(f"letter.{number}", text)
            made.append(Request(f"/orders/{faction}", sending(faction, path), text, "pw"))
        else:
            month += 1
            made.append(Request(f"/close/{month}", closing(month), "", "gm"))
    return made


class Server:
    """The program while it serves a number of requests on the files of the folder `served`."""

    def __init__(self, work, count, *before):
        self.port = free_port()
        words = ("serve", "--port", str(self.port), "--count", str(count), "--seed", SEED)
        silent = subprocess.DEVNULL
        self.process = subprocess.Popen([*before, *command(words, work.served)], stdout=silent, stderr=silent)
        while not self.listens():
            if self.process.poll() is not None:
                raise Failed("serve does not listen")
            time.sleep(0.01)

    def listens(self):
        """By the system's table of sockets, as a connection would count as a request."""
        wanted = f"0100007F:{self.port:04X}"
        with open("/proc/net/tcp") as table:
            return any(line.split()[1] == wanted and line.split()[3] == "0A" for line in table.readlines()[1:])

    def answers(self, request):
        """Whether the whole reply came, with status 200."""
        reply = b""
        try:
            with socket.create_connection(("127.0.0.1", self.port)) as peer:
                peer.sendall(request.bytes)
                while piece := peer.recv(65536):
                    reply += piece
        except OSError:
            return False
        head, _, body = reply.partition(b"\r\n\r\n")
        length = re.search(rb"(?i)content-length: (\d+)", head)
        if not length or len(body) < int(length.group(1)):
            return False
        if not reply.startswith(b"HTTP/1.1 200 "):
            raise Failed(f"serve refuses {request.words[0]}: {reply!r}")
        return True


def cut_serve(work, files, factions, count, dice):
    """Power cuts under `serve`: the campaign is the one after the requests that were answered, or after one more."""
    put_files(work.served, files)
    asked = requests(work, files, factions, 10, dice)
    server = Server(work, len(asked), *recording(work.trace))
    for request in asked:
        if not server.answers(request):
            raise Failed("serve does not answer")
    server.process.wait()
    events = Record(work.trace, work.served).events
    campaigns, made = [Campaign(work, files, REPORT)], files
    for request in asked:
        made = work.done(request.words, made)
        campaigns.append(Campaign(work, made, REPORT))
    counts = [0, 0]
    for state in states(files, events, count, dice):

        def check():
            found = judged(work, state.files, campaigns, REPORT)
            if found not in (state.answers, state.answers + 1):
                raise Failed(f"{state.answers} requests were answered, and the campaign is that after {found}")
            return found - state.answers

        counts[at(f"serve, {state.where}", check)] += 1
    return counts


def kill_serve(work, files, factions, kills, dice):
    """Kills of `serve` at random moments, each over what the one before left, and the number of requests that were
    answered before them. A run that ends before its moment is no kill."""
    counts, answered, first = [0, 0], 0, files
    put_files(work.served, files)
    while sum(counts) < kills:
        if standing(work, files)[1] > LAST_MONTH:
            files = first
            put_files(work.served, files)
        asked = requests(work, files, factions, 24, dice)
        server = Server(work, len(asked))
        killer = threading.Timer(dice.random() * dice.choice((0.02, 0.1, 0.3)), server.process.kill)
        killer.start()
        done = 0
        while done < len(asked) and server.answers(asked[done]):
            done += 1
        killer.join()
        was_killed = server.process.wait() < 0
        left = read_files(work.served)
        for request in asked[:done]:
            files = work.done(request.words, files)
        ends = [Campaign(work, files, REPORT)]
        if done < len(asked):
            ends.append(Campaign(work, work.done(asked[done].words, files), REPORT))
        place = at(f"serve, killed after {done} answers", lambda: judged(work, left, ends, REPORT))
        files = ends[place].files
        if was_killed:
            counts[place] += 1
            answered += done
    return counts, answered


# ---- all of it


class Table:
    def __init__(self):
        self.lines = ["| what | tried | as before | as after | otherwise |", "|---|---|---|---|---|"]

    def row(self, what, counts):
        self.lines.append(f"| {what} | {sum(counts)} | {counts[0]} | {counts[1]} | 0 |")
        print(f"cuts: {what}: {counts[0]} as before, {counts[1]} as after", flush=True)


def tried(work, times, dice):
    table, logs = Table(), []
    factions = min(FACTIONS * times, MOST_FACTIONS)
    files = played(work, factions)
    table.row("power cuts of `found`", cut_founding(work, CUTS * times, dice))
    for words, first in commands(work, files):
        counts, more = cut_command(work, words, first, CUTS * times, dice)
        table.row(f"power cuts of `{words[0]}`", counts)
        logs += more
    if not logs:
        raise Failed("no power cut leaves a log to recover from")
    table.row("power cuts under `serve`", cut_serve(work, files, factions, SERVED * times, dice))
    table.row("power cuts of recoveries", cut_recoveries(work, logs, AGAIN * times, dice))
    table.row("recoveries that are killed", kill_recoveries(work, logs, KILLS * times, dice))
    counts, answered = kill_serve(work, files, factions, SERVES * times, dice)
    table.row(f"kills of `serve`, before which {answered} requests were answered", counts)
    print("\n" + "\n".join(table.lines))


def main():
    words = sys.argv[1:]
    numbers = [int(word) for word in words if re.fullmatch("[1-9][0-9]*", word)]
    if len(words) > 2 or len(numbers) < len(words) or not shutil.which("strace"):
        print("cuts: TIMES and SEED are numbers from 1, and strace has to be there", file=sys.stderr)
        return 2
    times, seed = numbers + [1, 1][len(numbers) :]
    if not PROGRAM:
        print("cuts: gm finds no program", file=sys.stderr)
        return 2
    with tempfile.TemporaryDirectory() as root:
        try:
            tried(Work(root), times, random.Random(seed))
        except Failed as failed:
            print(f"cuts: {failed}")
            return 1
    print("cuts: all as expected")
    return 0


if __name__ == "__main__":
    sys.exit(main())
