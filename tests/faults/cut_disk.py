"""What a run writes to a database and its log, by a record of its system calls, and the files that a power cut leaves.
What was written since a file's last sync is lost, written, or written in part: torn at 512 bytes, cut off at any byte,
or with garbage in place of some sectors."""
import hashlib, os, re

SECTOR = 512
FILES = ("db", "wal")
CALL = re.compile(r"^(?:\d+ +)?(\w+)\((.*)\) += (-?\d+)")
TEXT = re.compile(r'"((?:\\x[0-9a-f]{2})*)"(\.\.\.)?')
READ = ("open", "openat", "close", "accept", "accept4", "sendto", "sendmsg", "write", "writev", "unlink", "unlinkat")
WRITES = ("pwrite64", "ftruncate", "fsync", "fdatasync")
# Calls that could change a file as well. A record with one of them on a file of the campaign can't be cut.
UNKNOWN = (
    "creat", "dup", "dup2", "dup3", "pwritev", "pwritev2", "truncate", "fallocate", "copy_file_range", "sendfile",
    "rename", "renameat", "renameat2", "link", "linkat",
)


class Failed(Exception):
    pass


# ---- files


def path_of(folder, file):
    return os.path.join(folder, "campaign.db" if file == "db" else "campaign.db-wal")


def read_files(folder):
    """The bytes of the database and of its log; None where a file is missing."""
    found = {}
    for file in FILES:
        path = path_of(folder, file)
        found[file] = open(path, "rb").read() if os.path.exists(path) else None
    return found


def put_files(folder, files):
    for name in os.listdir(folder):
        os.remove(os.path.join(folder, name))
    for file, data in files.items():
        if data is not None:
            with open(path_of(folder, file), "wb") as out:
                out.write(data)


# ---- the record of a run


def strace(trace, *more):
    return ["strace", "-f", "-xx", "-s", "100000000", "-o", trace, *more]


def recording(trace):
    return strace(trace, "-e", "trace=" + ",".join(READ + WRITES + UNKNOWN))


def calls_in(trace):
    """The names of all calls, in order."""
    return re.findall(r"^(?:\d+ +)?(\w+)\(", open(trace, encoding="latin-1").read(), re.M)


def bytes_of(text):
    found = TEXT.search(text)
    if found is None or found.group(2):
        raise Failed(f"a call that can't be read: {text[:80]}")
    return bytes.fromhex(found.group(1).replace("\\x", ""))


class Record:
    """What a run did to the two files and when it answered, in order: the `events`."""

    def __init__(self, trace, folder):
        self.folder = os.path.realpath(folder)
        self.files = {os.path.realpath(path_of(folder, file)): file for file in FILES}
        self.open, self.events = {1: "out"}, []
        for line in open(trace, encoding="latin-1"):
            found = CALL.match(line)
            if found is not None and int(found.group(3)) >= 0:
                self.read(found.group(1), found.group(2), int(found.group(3)))
            elif "<unfinished" in line and any(call + "(" in line for call in WRITES):
                raise Failed("two threads write: such a run can't be cut")

    def named(self, words):
        """Which file a call names: one of the two, the folder, or another."""
        path = os.path.realpath(os.path.join(self.folder, os.fsdecode(bytes_of(words))))
        return self.files.get(path, "folder" if path == self.folder else None)

    def read(self, call, words, value):
        if call in ("open", "openat"):
            self.begin(self.named(words), words, value)
        elif call in ("accept", "accept4"):
            self.open[value] = "peer"
        elif call in ("unlink", "unlinkat"):
            if self.named(words) in FILES:
                self.events.append(("drop", self.named(words)))
        elif call == "close":
            self.open.pop(int(words), None)
        elif words.split(",")[0].strip().isdigit():
            self.change(call, self.open.get(int(words.split(",")[0])), words, value)
        elif call in UNKNOWN and any(path in words for path in map(self.quoted, self.files)):
            raise Failed(f"a call on a file by its name: {call}")

    @staticmethod
    def quoted(path):
        return "".join(f"\\x{byte:02x}" for byte in os.fsencode(path))

    def begin(self, file, words, number):
        self.open[number] = file
        if file in FILES and "O_CREAT" in words:
            self.events.append(("make", file))
        if file in FILES and "O_TRUNC" in words:
            self.events.append(("size", file, 0))

    def change(self, call, file, words, value):
        if file == "peer" or file == "out" and call in ("write", "writev"):
            # a reply may be written in pieces, and the files change before the next one
            if not self.events or self.events[-1] != ("answer", None):
                self.events.append(("answer", None))
        elif call in ("fsync", "fdatasync") and file is not None:
            self.events.append(("sync", file))
        elif file in FILES and call == "pwrite64":
            self.events.append(("write", file, int(words.rsplit(",", 1)[1]), bytes_of(words)[:value]))
        elif file in FILES and call == "ftruncate":
            self.events.append(("size", file, int(words.rsplit(",", 1)[1])))
        elif file in FILES:
            raise Failed(f"a call on an open file that isn't known: {call}")


# ---- the states that a power cut leaves


def apply(files, event):
    kind, file = event[:2]
    if kind == "drop":
        files[file] = None
        return
    if files[file] is None:
        files[file] = bytearray()
    data = files[file]
    if kind == "size":
        data.extend(bytes(max(0, event[2] - len(data))))
        del data[event[2] :]
    elif kind == "write":
        offset, new = event[2:]
        data.extend(bytes(max(0, offset - len(data))))
        data[offset : offset + len(new)] = new


def certain(files, events):
    """What the disk holds for certain after these events, and the events that may or may not have come to it. The sync
    of a file keeps its name too, as Linux's file systems do."""
    last = {event[1]: place for place, event in enumerate(events) if event[0] == "sync"}
    held, pending = {file: None if data is None else bytearray(data) for file, data in files.items()}, []
    for place, event in enumerate(events):
        if event[0] in ("sync", "answer"):
            continue
        kept = last.get(event[1], -1)
        if event[0] in ("make", "drop"):
            kept = max(kept, last.get("folder", -1))
        if place < kept:
            apply(held, event)
        else:
            pending.append(event)
    return held, pending


def apply_part(files, event, how, dice):
    """A write of which only a part came to the disk."""
    _, file, offset, new = event
    if how == "cut":
        apply(files, ("write", file, offset, new[: dice.randrange(len(new) + 1)]))
        return
    data = files[file] or b""
    before = bytes(data[offset : offset + len(new)])
    before += bytes(len(new) - len(before))
    apply(files, event)
    for start in range(offset - offset % SECTOR, offset + len(new), SECTOR):
        if dice.random() < 0.5:
            low, high = max(start, offset), min(start + SECTOR, offset + len(new))
            old = before[low - offset : high - offset]
            files[file][low:high] = dice.randbytes(high - low) if how == "garbage" else old


# Of what isn't synced: all is lost, all is written, all but one, one alone, each by dice; or one is written in part,
# with those before it, and of those after it none (cut) or each by dice.
KINDS = ("lost", "written", "one lost", "one written", "some", "cut", "torn", "garbage")


def fate(kind, place, one, dice):
    """What becomes of a pending event: it is lost, written or written in part."""
    if kind in ("lost", "written"):
        return kind
    if kind == "one lost":
        return "lost" if place == one else "written"
    if kind == "one written":
        return "written" if place == one else "lost"
    if kind != "some" and place <= one:
        return "part" if place == one else "written"
    return "lost" if kind == "cut" else dice.choice(("lost", "written"))


def left_by(files, events, kind, dice):
    """The files that a power cut leaves after these events."""
    held, pending = certain(files, events)
    one = dice.randrange(max(1, len(pending)))
    for place, event in enumerate(pending):
        what = fate(kind, place, one, dice)
        if what == "part" and event[0] == "write":
            apply_part(held, event, kind, dice)
        elif what != "lost":
            apply(held, event)
    return {file: None if data is None else bytes(data) for file, data in held.items()}


def sum_of(files):
    digest = hashlib.sha256()
    for file in FILES:
        digest.update(b"none" if files[file] is None else b"%d:" % len(files[file]) + files[file])
    return digest.digest()


class State:
    """The files that a power cut leaves after the first events, and the number of answers among these."""

    def __init__(self, files, events, point, kind, dice):
        self.where = f"after {point} of {len(events)} calls, {kind}"
        self.answers = sum(event[0] == "answer" for event in events[:point])
        self.files = left_by(files, events[:point], kind, dice)


def states(files, events, count, dice):
    """A number of states, no two alike, or all that are found. The first half are at syncs and answers, with all lost
    or all written."""
    points = [place for place, event in enumerate(events) if event[0] in ("sync", "answer")] + [len(events)]
    bounds = [(point, kind) for point in points for kind in ("lost", "written")]
    dice.shuffle(bounds)
    bounds, seen = bounds[: (count + 1) // 2], set()
    for tried in range(40 * count):
        point, kind = dice.randrange(len(events) + 1), dice.choice(KINDS)
        if tried < len(bounds):
            point, kind = bounds[tried]
        state = State(files, events, point, kind, dice)
        key = (sum_of(state.files), state.answers)
        if key not in seen:
            seen.add(key)
            yield state
        if len(seen) == count:
            return
