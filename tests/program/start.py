#!/usr/bin/env python3
"""Tests the script gm, which finds the program and runs it, and tools/release, which makes the release that gm unpacks.

Most tests work in a small repository of their own, where programs are shell scripts that print their names, and rt is
such a script too. Called without arguments it takes some 20 seconds, and ends with 'OK'. As root it also runs gm as
another user and on a full disk."""
import hashlib
import os
import random
import shutil
import signal
import subprocess
import sys
import tempfile
import time
import unittest
from collections.abc import Iterator
from contextlib import contextmanager
from pathlib import Path

TOP = Path(__file__).resolve().parents[2]
KIT = "kit-of-the-test logic 0"
BUILT = "crates/atl_gm/out/atl_gm"
PACK = "release/atl_gm.xz"
SUMS = "release/SHA256SUMS"
LOW = "crates/atl_low/src/deep/low.rt"
CRATES = """# the lowest first
atl_low: slab
atl_tests: atl_low
atl_campaign: atl_low
atl_service: atl_campaign
atl_gm: atl_service clap
"""
FILES = {
    "crates.txt": CRATES,
    LOW: "low\n",
    "crates/atl_low/src/lib.rt": "lib\n",
    "crates/atl_tests/src/lib.rt": "tests\n",
    "crates/atl_campaign/src/lib.rt": "campaign\n",
    "crates/atl_service/src/lib.rt": "service\n",
    "crates/atl_gm/src/main.rt": "main\n",
    "worlds/small.toml": "world\n",
    ".gitignore": "out/\n",
}
NOBODY = 65534
# The tools that gm calls, but xz and those that a test replaces.
TOOLS = """bash cat chmod cp cut date diff dirname find getconf git head mkdir mktemp mv nproc readlink rm sed sha256sum
sort stat sync tail tee touch uname xz"""


def program_text(name: str) -> str:
    return f'#!/bin/sh\necho "{name}: $*"\n'


def program_file(tree: Path, name: str) -> Path:
    """Where gm unpacks a program."""
    return tree / "out" / hashlib.sha256(program_text(name).encode()).hexdigest() / "atl_gm"


def packed(name: str) -> bytes:
    """The text of a program, packed by xz itself."""
    return subprocess.run(["xz", "-c"], input=program_text(name).encode(), capture_output=True, check=True).stdout


def put(path: Path, text: str, mode: int = 0o644) -> None:
    path.parent.mkdir(parents=True, exist_ok=True)
    path.write_text(text, encoding="utf-8")
    path.chmod(mode)


def git(tree: Path, *words: str) -> None:
    settings = ("user.name=test", "user.email=test@example.org", "init.defaultBranch=main", "commit.gpgSign=false")
    options = [word for setting in settings for word in ("-c", setting)]
    subprocess.run(["git", "-C", str(tree), *options, *words], check=True, capture_output=True)


class Trees(unittest.TestCase):
    """Tests in a folder of their own, with a home, and with a PATH that has the tools of gm alone."""

    def setUp(self) -> None:
        self.work = Path(self.enterContext(tempfile.TemporaryDirectory()))
        self.work.chmod(0o755)
        self.tools = self.work / "tools"
        self.tools.mkdir()
        for tool in TOOLS.split():
            (self.tools / tool).symlink_to(shutil.which(tool) or "/missing")
        self.home = self.work / "home"
        self.temporary = self.work / "temporary"
        for folder in (self.home, self.temporary):
            folder.mkdir()
        self.environment = {"PATH": str(self.tools), "HOME": str(self.home), "TMPDIR": str(self.temporary)}

    def tree(self, name: str = "tree", program: str = "one") -> Path:
        """A repository with a release of this program."""
        tree = self.work / name
        for path, text in FILES.items():
            put(tree / path, text)
        for path in ("gm", "tools/release"):
            put(tree / path, (TOP / path).read_text(encoding="utf-8"), 0o755)
        git(self.work, "init", "-q", str(tree))
        self.release(tree, program)
        return tree

    def release(self, tree: Path, program: str) -> None:
        """Makes the release of the sources as they are, with this program, and commits it."""
        put(self.work / "program", program_text(program), 0o755)
        subprocess.run([tree / "tools/release", self.work / "program", "--kit", KIT], check=True, capture_output=True)
        git(tree, "add", "-A")
        git(tree, "commit", "-qm", program)

    def clone(self, tree: Path, name: str = "clone") -> Path:
        git(self.work, "clone", "-q", str(tree), str(self.work / name))
        return self.work / name

    def replace_tool(self, name: str, text: str) -> None:
        (self.tools / name).unlink(missing_ok=True)
        put(self.tools / name, f"#!/bin/bash\n{text}\n", 0o755)

    def call(self, tree: Path, *words: str, **options: str) -> subprocess.CompletedProcess[str]:
        environment = self.environment | options
        return subprocess.run([tree / "gm", *words], env=environment, capture_output=True, text=True, timeout=60)

    def assert_runs(self, tree: Path, program: str, **options: str) -> None:
        """gm runs this program with the words that it is given, and says nothing itself."""
        ended = self.call(tree, "trial", "a b", **options)
        self.assertEqual((ended.returncode, ended.stdout, ended.stderr), (0, f"{program}: trial a b\n", ""))

    def assert_warns(self, tree: Path, program: str, *names: str) -> None:
        """gm runs this program, with one line of warning that has these names."""
        ended = self.call(tree, "trial")
        self.assertEqual((ended.returncode, ended.stdout), (0, f"{program}: trial\n"), ended.stderr)
        self.assertEqual(ended.stderr.count("\n"), 1, ended.stderr)
        self.assertTrue(ended.stderr.startswith("gm: warning: "), ended.stderr)
        for name in names:
            self.assertIn(name, ended.stderr)

    def assert_stops(self, tree: Path, *texts: str, **options: str) -> None:
        """gm runs nothing and leaves nothing unpacked; it says why in one line that has these texts."""
        ended = self.call(tree, "trial", **options)
        self.assertEqual((ended.returncode, ended.stdout, ended.stderr.count("\n")), (1, "", 1), ended.stderr)
        for text in texts:
            self.assertIn(text, ended.stderr)
        self.assertEqual([*self.left()], [])

    def left(self) -> Iterator[Path]:
        """What gm unpacked, whole or in part, in each place where it may."""
        for folder in (*self.work.glob("*/out"), self.home, self.temporary):
            yield from (path for path in folder.rglob("*") if path.is_file())


class Copies(Trees):
    """What a club does with a clone."""

    def test_a_new_clone(self) -> None:
        clone = self.clone(self.tree())
        for _ in range(2):
            self.assert_runs(clone, "one")
        self.assertEqual([*self.left()], [program_file(clone, "one")])

    def test_git_pull_brings_its_release(self) -> None:
        tree = self.tree()
        clone = self.clone(tree)
        self.assert_runs(clone, "one")
        put(tree / LOW, "changed\n")
        self.release(tree, "two")
        git(clone, "pull", "-q")
        self.assert_runs(clone, "two")
        self.assertEqual([*self.left()], [program_file(clone, "two")])
        git(clone, "checkout", "-q", "HEAD~1")
        self.assert_runs(clone, "one")

    def test_git_pull_of_a_changed_release_of_the_same_sources(self) -> None:
        tree = self.tree()
        clone = self.clone(tree)
        self.assert_runs(clone, "one")
        self.release(tree, "two")
        git(clone, "pull", "-q")
        self.assert_runs(clone, "two")

    def test_copies_of_a_tree(self) -> None:
        tree = self.tree()
        copies = [("cp", "-r", tree, self.work / "early")]
        copies += [("cp", "-r", tree, self.work / "late"), ("cp", "-a", tree, self.work / "same")]
        for copy in copies:
            subprocess.run(copy, check=True)
            self.assert_runs(Path(copy[-1]), "one")
            self.assert_runs(tree, "one")
        for words in (("-c", "-C", str(tree), "."), ("-xm", "-C", str(self.home))):
            subprocess.run(["tar", "-f", str(self.work / "archive"), *words], check=True)
        self.assert_runs(self.home, "one")

    def test_a_checkout_whose_files_are_all_new(self) -> None:
        tree = self.tree()
        self.assert_runs(tree, "one")
        for path in tree.rglob("*"):
            if ".git" not in path.parts and path.is_file():
                os.utime(path, (2e9, 2e9))
        self.assert_runs(tree, "one")

    def test_links_to_gm(self) -> None:
        tree = self.tree()
        (self.home / "bin").mkdir()
        (self.home / "bin/gm").symlink_to(tree / "gm")
        (self.home / "gm").symlink_to("bin/gm")
        self.assert_runs(self.home, "one")
        self.assert_runs(self.home / "bin", "one")

    def test_a_folder_with_a_space_and_another_working_folder(self) -> None:
        tree = self.tree("a tree")
        self.assert_runs(tree, "one")
        call = [os.path.relpath(tree / "gm", self.home)]
        self.assertEqual(subprocess.check_output(call, cwd=self.home, env=self.environment, text=True), "one: \n")

    def test_gm_path_names_the_program(self) -> None:
        tree = self.tree()
        self.assertEqual(self.call(tree, "path").stdout, f"{program_file(tree, 'one')}\n")
        self.assertEqual(self.call(tree, "path", ATL_GM="/bin/true").stdout, "/bin/true\n")
        self.assertEqual(self.call(tree, "path", "more").stdout, "one: path more\n")


class AtOnce(Trees):
    """Several calls at the same moment, and calls that are killed."""

    def start(self, tree: Path) -> subprocess.Popen[bytes]:
        pipe = subprocess.PIPE
        return subprocess.Popen([tree / "gm"], env=self.environment, stdout=pipe, stderr=pipe, start_new_session=True)

    def test_many_first_calls_at_once(self) -> None:
        tree = self.tree()
        for _ in range(20):
            shutil.rmtree(tree / "out", ignore_errors=True)
            calls = [self.start(tree) for _ in range(4)]
            self.assertEqual({call.communicate() for call in calls}, {(b"one: \n", b"")})
            self.assertEqual([*self.left()], [program_file(tree, "one")])

    def test_a_killed_call_leaves_nothing_that_runs(self) -> None:
        """Each kill is of gm and of what it called, at a random moment. What it leaves isn't called as a program is."""
        tree = self.tree()
        chance = random.Random(1)
        for _ in range(60):
            shutil.rmtree(tree / "out", ignore_errors=True)
            call = self.start(tree)
            time.sleep(chance.uniform(0, 0.06))
            os.killpg(call.pid, signal.SIGKILL)
            call.communicate()
            for path in (tree / "out").glob("*/atl_gm"):
                self.assertEqual(path, program_file(tree, "one"))
                self.assertEqual(path.read_text(encoding="utf-8"), program_text("one"))
            self.assert_runs(tree, "one")

    def test_an_interrupted_call_takes_its_part_away(self) -> None:
        tree = self.tree()
        self.replace_tool("sync", "kill -TERM $PPID; sleep 0.1; exit 1")
        self.assertNotEqual(self.call(tree).returncode, 0)
        self.assertEqual([*self.left()], [])


@unittest.skipIf(os.geteuid() != 0, "only root can take rights away")
class AnotherUser(Trees):
    """gm of a user who can't write into the repository."""

    def call(self, tree: Path, *words: str, **options: str) -> subprocess.CompletedProcess[str]:
        safe = ["git", "config", "--file", str(self.work / "config"), "--add", "safe.directory", "*"]
        subprocess.run(safe, check=True)
        drop = ["setpriv", f"--reuid={NOBODY}", f"--regid={NOBODY}", "--clear-groups", "--"]
        environment = self.environment | {"PATH": f"{self.tools}:/usr/bin:/bin"} | options
        return subprocess.run([*drop, tree / "gm", *words], env=environment, capture_output=True, text=True, timeout=60)

    def test_the_cache(self) -> None:
        tree = self.tree()
        os.chown(self.home, NOBODY, NOBODY)
        for _ in range(2):
            self.assert_runs(tree, "one")
        inner = program_file(tree, "one").relative_to(tree / "out")
        self.assertEqual([*self.left()], [self.home / ".cache/kiwirudder" / inner])
        self.assert_runs(tree, "one", XDG_CACHE_HOME=str(self.home / "other"))
        self.assertTrue((self.home / "other/kiwirudder").is_dir())

    def test_a_temporary_folder(self) -> None:
        tree = self.tree()
        os.chown(self.temporary, NOBODY, NOBODY)
        self.assert_runs(tree, "one", HOME="/nonexistent")
        self.assert_runs(tree, "one", HOME="")
        self.assertEqual([path.parent.parent.name for path in self.left()], [f"kiwirudder-{NOBODY}"])

    def test_a_folder_of_somebody_else_is_not_used(self) -> None:
        tree = self.tree()
        self.temporary.chmod(0o1777)
        trap = self.temporary / f"kiwirudder-{NOBODY}"
        for owner, mode in ((1234, 0o755), (1234, 0o777), (NOBODY, 0o777), (NOBODY, 0o775)):
            inner = trap / program_file(tree, "one").parent.name
            put(inner / "atl_gm", program_text("trap"), 0o755)
            for folder in (trap, inner):
                os.chown(folder, owner, owner)
            inner.chmod(mode)
            self.assertIn("no room", self.call(tree, HOME="/nonexistent").stderr)
            shutil.rmtree(trap)

    def test_no_place_at_all(self) -> None:
        self.assert_stops(self.tree(), "no room", "no right")

    def test_a_program_that_the_owner_unpacked(self) -> None:
        tree = self.tree()
        subprocess.run([tree / "gm"], env=self.environment, check=True, capture_output=True)
        self.assert_runs(tree, "one")


class BadInput(Trees):
    """Releases and machines that are not as they should be."""

    def sums(self, tree: Path) -> list[str]:
        return (tree / SUMS).read_text(encoding="utf-8").splitlines(keepends=True)

    def test_another_pack(self) -> None:
        tree = self.tree()
        whole = (tree / PACK).read_bytes()
        flipped = whole[:30] + bytes([whole[30] ^ 1]) + whole[31:]
        for other in (b"", whole[:-1], whole[: len(whole) // 2], whole + b"\0", flipped):
            (tree / PACK).write_bytes(other)
            self.assert_stops(tree, PACK, "cut short or changed", "git checkout -- release")
        (tree / PACK).unlink()
        self.assert_stops(tree, PACK, "missing", "git checkout -- release")

    def test_another_checksum_of_the_program(self) -> None:
        tree = self.tree()
        lines = self.sums(tree)
        lines[2] = "0" * 64 + lines[2][64:]
        put(tree / SUMS, "".join(lines))
        self.assert_stops(tree, "another program", SUMS, "git checkout -- release")

    def test_another_program_with_its_own_checksum(self) -> None:
        """A pack of another program, whose checksum in the manifest was changed too."""
        tree = self.tree()
        for content in (packed("other"), b"no xz at all"):
            (tree / PACK).write_bytes(content)
            lines = self.sums(tree)
            lines[1] = hashlib.sha256(content).hexdigest() + lines[1][64:]
            put(tree / SUMS, "".join(lines))
            self.assert_stops(tree, "git checkout -- release")

    def test_no_manifest_or_half_of_one(self) -> None:
        tree = self.tree()
        text = "".join(self.sums(tree))
        for part in ("", text[:50], text[:200], text[:-30], text.replace("  ", " x "), text.upper()):
            put(tree / SUMS, part)
            self.assert_stops(tree, "release")
        (tree / SUMS).unlink()
        self.assert_stops(tree, SUMS, "missing", "git checkout -- release")

    def test_no_xz(self) -> None:
        tree = self.tree()
        (self.tools / "xz").unlink()
        self.assert_stops(tree, "xz is missing", "apt-get install xz-utils")

    def test_another_processor_or_system(self) -> None:
        tree = self.tree()
        for machine in ("Linux aarch64", "Linux i686", "Darwin x86_64"):
            self.replace_tool("uname", f"echo {machine}")
            self.assert_stops(tree, machine, "x86-64 Linux")

    def test_an_older_c_library(self) -> None:
        tree = self.tree()
        for version in ("2.33", "2.4", "2.31.9", "1.99"):
            self.replace_tool("getconf", f"echo glibc {version}")
            self.assert_stops(tree, f"glibc {version}", "2.34", "Debian 12")
        for version in ("2.34", "2.36", "2.100", "3.0"):
            self.replace_tool("getconf", f"echo glibc {version}")
            self.assert_runs(tree, "one")

    def test_another_c_library(self) -> None:
        self.replace_tool("getconf", "echo 'getconf: no such name' >&2; exit 1")
        self.assert_stops(self.tree(), "no glibc", "2.34")

    def test_a_limit_of_the_size_of_files(self) -> None:
        tree = self.tree()
        self.release(tree, "x" * 100_000)
        shutil.copy(tree / "gm", tree / "gm.real")
        put(tree / "gm", f'#!/bin/bash\nulimit -f 8\nexec "{tree}/gm.real" "$@"\n', 0o755)
        self.assert_stops(tree, "no room")

    @unittest.skipIf(os.geteuid() != 0, "only root can mount a small disk")
    def test_a_full_disk(self) -> None:
        tree = self.tree()
        self.release(tree, "x" * 100_000)
        (tree / "out").mkdir()
        with small_disk(tree / "out"):
            self.assertIn("kiwirudder", self.call(tree, "path").stdout)
            shutil.rmtree(self.home / ".cache")
            self.assert_stops(tree, "no room", HOME="", TMPDIR=str(tree / "out"))


@contextmanager
def small_disk(folder: Path) -> Iterator[None]:
    mount = ["mount", "-t", "tmpfs", "-o", "size=64k,mode=755", "tmpfs", str(folder)]
    if subprocess.run(mount, capture_output=True).returncode:
        raise unittest.SkipTest("no disk can be mounted here")
    try:
        yield
    finally:
        subprocess.run(["umount", str(folder)], check=True)


class OtherSources(Trees):
    """Sources that are not those of the release."""

    def test_a_changed_byte_is_named(self) -> None:
        for path in ("crates.txt", LOW, "crates/atl_gm/src/main.rt"):
            tree = self.tree(f"of {path.replace('/', '-')}")
            (tree / path).write_text((tree / path).read_text(encoding="utf-8") + " ", encoding="utf-8")
            self.assert_stops(tree, path, "gm build")
            git(tree, "stash", "-q")
            self.assert_runs(tree, "one")
            git(tree, "stash", "pop", "-q")
            self.assert_warns(tree, "one", path, "gm build")
            shutil.rmtree(tree)

    def test_files_that_come_and_go(self) -> None:
        tree = self.tree()
        self.assert_runs(tree, "one")
        (tree / LOW).rename(tree / "crates/atl_low/src/new name.rt")
        self.assert_warns(tree, "one", LOW, "crates/atl_low/src/new name.rt")
        for number in range(5):
            put(tree / f"crates/atl_gm/src/more{number}.rt", "")
        self.assert_warns(tree, "one", "and 4 more")

    def test_what_does_not_decide_the_bytes(self) -> None:
        tree = self.tree()
        of_crates = ("atl_tests/src/lib.rt", "atl_low/specs/Low.antt", "atl_gm/stdout", "atl_low/src/.lib.rt.swp")
        for path in ("README.md", *(f"crates/{path}" for path in of_crates)):
            put(tree / path, "changed")
        self.assert_runs(tree, "one")

    def test_a_built_program_without_a_record(self) -> None:
        tree = self.tree()
        put(tree / BUILT, program_text("built"), 0o755)
        self.assert_runs(tree, "one")
        put(tree / LOW, "changed")
        shutil.rmtree(tree / "out")
        self.assert_warns(tree, "built", LOW)
        (tree / SUMS).unlink()
        self.assert_warns(tree, "built")

    def test_the_program_that_is_named(self) -> None:
        tree = self.tree()
        put(self.work / "named", program_text("named"), 0o755)
        self.assert_runs(tree, "named", ATL_GM=str(self.work / "named"))
        self.assert_stops(tree, "ATL_GM", ATL_GM=str(self.work / "nothing"))


class Building(Trees):
    """gm build, with a stand-in for rt."""

    def build_with(self, *lines: str) -> None:
        """Makes the rt of the test, which notes its calls, and in the last one makes the program `built`."""
        put(self.work / "built", program_text("built"), 0o755)
        note = f'[ "$*" != version ] || {{ echo {KIT}; exit; }}\necho "$(basename "$PWD") $*" >>{self.work}/calls'
        made = f"[[ $PWD != */atl_gm ]] || {{ mkdir -p out; cp {self.work}/built out/atl_gm; }}"
        (self.tools / "basename").unlink(missing_ok=True)
        (self.tools / "basename").symlink_to("/usr/bin/basename")
        self.replace_tool("rt", "\n".join((note, *lines, made)))

    def test_without_the_kit(self) -> None:
        self.assertIn("rt is not on the PATH", self.call(self.tree(), "build").stderr)

    def test_only_build_calls_the_kit(self) -> None:
        tree = self.tree()
        self.build_with()
        self.assert_runs(tree, "one")
        put(tree / LOW, "changed")
        self.assert_warns(tree, "one", LOW)
        self.assertFalse((self.work / "calls").exists())

    def test_a_build(self) -> None:
        tree = self.tree()
        put(tree / LOW, "changed")
        self.build_with("echo 'so far: half'")
        ended = self.call(tree, "build")
        self.assertEqual((ended.returncode, ended.stdout), (0, ""), ended.stderr)
        for text in ("atl_campaign and what it stands on", "atl_service", "gm: half", "gm: built, "):
            self.assertIn(text, ended.stderr)
        calls = [line.split()[:2] for line in (self.work / "calls").read_text(encoding="utf-8").splitlines()]
        self.assertEqual(calls, [["atl_campaign", "lib"], ["atl_service", "all"], ["atl_gm", "run"]])
        self.assert_runs(tree, "built")
        put(tree / LOW, "changed again")
        self.assert_warns(tree, "built", LOW)

    def test_a_built_program_that_was_replaced(self) -> None:
        tree = self.tree()
        self.build_with()
        self.call(tree, "build")
        self.assert_runs(tree, "built")
        put(tree / BUILT, program_text("other"), 0o755)
        self.assert_runs(tree, "one")

    def test_a_failure_of_the_kit(self) -> None:
        tree = self.tree()
        self.build_with("echo 'error: this is refused'", "exit 1")
        ended = self.call(tree, "build")
        self.assertEqual(ended.returncode, 1)
        self.assertIn("error: this is refused\ngm: atl_campaign could not be proved and built", ended.stderr)
        self.assert_runs(tree, "one")

    def test_a_source_that_changes_meanwhile(self) -> None:
        tree = self.tree()
        self.build_with(f"echo more >>{tree}/{LOW}")
        ended = self.call(tree, "build")
        self.assertEqual(ended.returncode, 1)
        self.assertIn(f"{LOW} changed meanwhile", ended.stderr)
        self.assert_warns(tree, "built", LOW)


class Release(Trees):
    """tools/release."""

    def make(self, tree: Path, *words: str) -> subprocess.CompletedProcess[str]:
        environment = self.environment | {"PATH": f"{self.tools}:/usr/bin:/bin"}
        return subprocess.run([tree / "tools/release", *words], env=environment, capture_output=True, text=True)

    def files(self, tree: Path) -> dict[str, bytes]:
        return {path.name: path.read_bytes() for path in (tree / "release").iterdir()}

    def test_the_same_again(self) -> None:
        tree = self.tree()
        first = self.files(tree)
        self.assertEqual({*first}, {"atl_gm.xz", "SHA256SUMS", "README.md"})
        other = self.tree("other")
        self.assertEqual(self.files(other), first)

    def test_sha256sum_checks_the_manifest(self) -> None:
        tree = self.tree()
        put(tree / BUILT, program_text("one"), 0o755)
        check = ["sha256sum", "--check", "--quiet", "--strict", SUMS]
        self.assertEqual(subprocess.run(check, cwd=tree, capture_output=True, text=True).stdout, "")
        put(tree / LOW, "changed")
        self.assertEqual(subprocess.run(check, cwd=tree, capture_output=True, text=True).stdout, f"{LOW}: FAILED\n")
        self.assertEqual((tree / SUMS).read_text(encoding="utf-8").splitlines()[0], f"# {KIT}")

    def test_a_program_of_the_gate(self) -> None:
        tree = self.tree()
        put(tree / BUILT, program_text("gate"), 0o755)
        self.replace_tool("rt", f"echo {KIT} of rt")
        self.assertEqual(self.make(tree).returncode, 0)
        self.assert_runs(tree, "gate")
        self.assertIn(f"# {KIT} of rt\n", (tree / SUMS).read_text(encoding="utf-8"))

    def test_a_program_of_another_checkout(self) -> None:
        tree, other = self.tree(), self.tree("other")
        put(other / BUILT, program_text("gate"), 0o755)
        put(other / LOW, "changed")
        ended = self.make(tree, str(other), "--kit", KIT)
        self.assertEqual((ended.returncode, LOW in ended.stderr), (1, True))
        put(other / LOW, FILES[LOW])
        self.assertEqual(self.make(tree, str(other), "--kit", KIT).returncode, 0)
        self.assert_runs(tree, "gate")

    def test_a_program_that_was_built_from_other_sources(self) -> None:
        tree = self.tree()
        put(tree / BUILT, program_text("gate"), 0o755)
        put(tree / f"{BUILT}.sources", "# kit\nanother\n")
        before = self.files(tree)
        self.assertIn("not built from these sources", self.make(tree, "--kit", KIT).stderr)
        self.assertEqual(self.files(tree), before)

    def test_no_program_and_no_kit(self) -> None:
        tree = self.tree()
        self.assertIn("isn't there", self.make(tree, "--kit", KIT).stderr)
        self.assertIn("isn't there", self.make(tree, "/nothing", "--kit", KIT).stderr)
        put(tree / BUILT, program_text("gate"), 0o755)
        self.replace_tool("rt", "exit 2")
        self.assertIn("--kit", self.make(tree).stderr)


class Compared(Trees):
    """tests/program/release.py, over releases into which a bug is planted."""

    def setUp(self) -> None:
        super().setUp()
        self.clean = self.tree()
        put(self.clean / "tests/program/release.py", (TOP / "tests/program/release.py").read_text(encoding="utf-8"), 0o755)
        put(self.clean / BUILT, program_text("one"), 0o755)
        self.replace_tool("rt", f"echo {KIT}")

    def compare(self, *words: str) -> subprocess.CompletedProcess[str]:
        environment = self.environment | {"PATH": f"{self.tools}:/usr/bin:/bin"}
        call = [str(self.clean / "tests/program/release.py"), *words]
        return subprocess.run(call, cwd=self.clean, env=environment, capture_output=True, text=True)

    def assert_finds(self, *texts: str, built: bool = False) -> None:
        """The planted bug is found with a built program, and also without one, if it isn't in the built program."""
        calls: list[list[str]] = [[BUILT]] if built else [[BUILT], []]
        for words in calls:
            ended = self.compare(*words)
            self.assertEqual((ended.returncode, ended.stderr), (1, ""))
            for text in texts:
                self.assertIn(text, ended.stdout)

    def change_line(self, at: int, line: str) -> None:
        lines = (self.clean / SUMS).read_text(encoding="utf-8").splitlines(keepends=True)
        lines[at] = line + lines[at][64:]
        put(self.clean / SUMS, "".join(lines))

    def test_nothing_planted(self) -> None:
        self.assertEqual((self.compare(BUILT).returncode, self.compare(BUILT).stdout), (0, "release: as recorded\n"))
        ended = self.compare()
        self.assertEqual((ended.returncode, "only checksums" in ended.stdout), (0, True))

    def test_another_program_was_built(self) -> None:
        put(self.clean / BUILT, program_text("two"), 0o755)
        self.assert_finds("differ first at byte 17", "Call tools/release", built=True)
        (self.clean / BUILT).unlink()
        self.assert_finds("isn't there", built=True)

    def test_another_program_in_the_release(self) -> None:
        whole = (self.clean / PACK).read_bytes()
        other = packed("two")
        for content in (other, whole[:-1], b"", b"no pack"):
            (self.clean / PACK).write_bytes(content)
            self.assert_finds(f"{PACK} isn't the pack")
            self.change_line(1, hashlib.sha256(content).hexdigest())
            self.assert_finds(PACK)
        (self.clean / PACK).write_bytes(other)
        self.change_line(1, hashlib.sha256(other).hexdigest())
        self.change_line(2, hashlib.sha256(program_text("two").encode()).hexdigest())
        self.assert_finds("isn't the program that was built", built=True)

    def test_another_checksum(self) -> None:
        for at, text in ((1, "isn't the pack"), (2, "another program"), (3, "crates.txt"), (4, "crates/")):
            whole = (self.clean / SUMS).read_text(encoding="utf-8")
            self.change_line(at, "0" * 64)
            self.assert_finds(text)
            put(self.clean / SUMS, whole)

    def test_a_source_changed_by_one_byte(self) -> None:
        for path in ("crates.txt", LOW, "crates/atl_gm/src/main.rt"):
            whole = (self.clean / path).read_text(encoding="utf-8")
            put(self.clean / path, whole[:-1])
            self.assert_finds(path, "call tools/release")
            put(self.clean / path, whole)
        put(self.clean / "crates/atl_gm/src/new.rt", "")
        self.assert_finds("crates/atl_gm/src/new.rt")

    def test_another_kit(self) -> None:
        self.replace_tool("rt", "echo another")
        self.assert_finds("another kit", built=True)

    def test_another_text_or_half_a_manifest(self) -> None:
        put(self.clean / "release/README.md", "# Another\n")
        self.assert_finds("README.md")
        put(self.clean / SUMS, "")
        self.assert_finds(SUMS)
        (self.clean / SUMS).unlink()
        self.assert_finds(SUMS)


class ThisRepository(unittest.TestCase):
    """The release of this repository, as a fresh clone unpacks it."""

    def test_the_first_report_of_a_fresh_copy(self) -> None:
        folder = Path(self.enterContext(tempfile.TemporaryDirectory()))
        for name in ("gm", "crates.txt"):
            shutil.copy2(TOP / name, folder / name)
        for name in ("release", "worlds"):
            shutil.copytree(TOP / name, folder / name)
        for source in (TOP / "crates").glob("*/src"):
            shutil.copytree(source, folder / source.relative_to(TOP))
        environment = {key: value for key, value in os.environ.items() if key != "ATL_GM"}
        seconds = []
        for _ in range(2):
            began = time.monotonic()
            with (folder / "worlds/small.toml").open("rb") as world:
                ended = subprocess.run([folder / "gm", "trial"], stdin=world, env=environment, capture_output=True)
            seconds.append(time.monotonic() - began)
            self.assertEqual((ended.returncode, ended.stderr), (0, b""))
            self.assertEqual(ended.stdout, (TOP / "crates/atl_gm/stdout").read_bytes())
        print(f"the first call took {seconds[0]:.2f} s, the second {seconds[1]:.2f} s", file=sys.stderr)


if __name__ == "__main__":
    unittest.main()
