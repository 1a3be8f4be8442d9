#!/usr/bin/env python3
"""Tests the package of tools/package: built twice, and then installed, used, upgraded and removed in a Debian 12 root.

The root is made by debootstrap in a temporary folder, and kept as an archive in the user's cache. Nothing in it has a
network but its own loopback. Where this copy has no office, a stand-in takes its place in the package. Called without
arguments as root, it takes about two minutes, and ends with 'OK'. Status 77: it was skipped, and the last line says
why."""
import gzip
import hashlib
import importlib.machinery
import importlib.util
import os
import re
import shutil
import subprocess
import sys
import tempfile
import unittest
from collections.abc import Mapping
from email.utils import parsedate_to_datetime
from pathlib import Path

TOP = Path(__file__).resolve().parents[2]
TOOLS = ("debootstrap", "pandoc", "dpkg-deb", "chroot", "tar")
SUITE = "bookworm"
INCLUDED = "adduser,python3,sqlite3"
CACHE = Path(os.environ.get("XDG_CACHE_HOME") or Path.home() / ".cache") / "kiwirudder" / f"{SUITE}-root.tar"
LEFT_OUT = shutil.ignore_patterns("out", "specs", "proofs", "__pycache__")
OLD, NEW = "0.9", "9.0"
# The time of each file of the newer package, which is later than any file's own. That of the older package is the date
# of package/changelog.
LATE = {"SOURCE_DATE_EPOCH": "4102444800"}
CLUB = "/var/lib/kiwirudder/club"
LEAST_GLIBC = (2, 34)
LIBRARIES = {"libc.so.6", "libm.so.6", "libgcc_s.so.1", "ld-linux-x86-64.so.2"}
OFFICE_CLUB = "/var/lib/kiwirudder/office"
HAS_OFFICE = (TOP / "office").is_dir()
OFFICE = """#!/usr/bin/env python3
import sys
from pathlib import Path
sys.path.insert(0, str(Path(__file__).resolve().parent))
import office
print(office.NAME)
"""
LOOPBACK_UP = """
import fcntl, socket, struct, subprocess, sys, time, urllib.request
with socket.socket() as any_socket:
    fcntl.ioctl(any_socket, 0x8914, struct.pack("16sH14x", b"lo", 1))
"""
# Serves two requests, and prints both replies.
SERVE = LOOPBACK_UP + """
serve = subprocess.Popen(["atl_gm", "serve", "--db", "club.db", "--port", "8080", "--count", "2", "--seed", "3"])
for path, body in (("report/1", None), ("orders/1", b"#ATLANTIS 1\\nUNIT 1\\nWORK\\n")):
    for _ in range(100):
        try:
            request = urllib.request.Request("http://127.0.0.1:8080/" + path, body, {"Atlantis-Pass": "apple"})
            print(urllib.request.urlopen(request).read().decode())
            break
        except urllib.error.URLError:
            time.sleep(0.1)
sys.exit(serve.wait())
"""
# Runs the command line of a unit until it answers at the club's port, and stops it as systemd does.
SERVE_BY_UNIT = LOOPBACK_UP + """
serve = subprocess.Popen(sys.argv[1:])
for _ in range(200):
    with socket.socket() as client:
        if client.connect_ex(("127.0.0.1", 8080)) == 0:
            break
    time.sleep(0.1)
else:
    sys.exit("it doesn't answer")
serve.terminate()
sys.exit(serve.wait())
"""


def run(*words: str, env: Mapping[str, str] | None = None, input: str = "") -> subprocess.CompletedProcess[str]:
    return subprocess.run(words, capture_output=True, text=True, cwd="/", env=env, input=input)


def copy_tree(target: Path) -> Path:
    """What the package is made of, with an office."""
    for name in ("crates", "docs", "examples", "package", "release", "tools", "web", "worlds", "office"):
        if (TOP / name).is_dir():
            shutil.copytree(TOP / name, target / name, ignore=LEFT_OUT)
    for name in ("README.md", "crates.txt", "kiwirudder"):
        if (TOP / name).is_file():
            shutil.copy(TOP / name, target / name)
    if not (target / "office").is_dir():
        (target / "office").mkdir()
        (target / "office/__init__.py").write_text("NAME = 'a stand-in for the office'\n", encoding="utf-8")
        (target / "kiwirudder").write_text(OFFICE, encoding="utf-8")
        (target / "kiwirudder").chmod(0o755)
    return target


def checksum(path: Path) -> str:
    return hashlib.sha256(path.read_bytes()).hexdigest()


def build(tree: Path, version: str, environment: dict[str, str]) -> Path:
    """The package of a tree."""
    words = (str(tree / "tools/package"), "--to", str(tree / "out"), "--version", version)
    ended = run(*words, env=os.environ | environment)
    if ended.returncode:
        raise AssertionError(ended.stderr)
    return tree / "out" / f"kiwirudder_{version}_amd64.deb"


def make_archive() -> None:
    """The archive of a Debian root. It is kept only when it is whole."""
    CACHE.parent.mkdir(parents=True, exist_ok=True)
    with tempfile.TemporaryDirectory() as folder:
        root, part = Path(folder) / "root", CACHE.with_suffix(f".{os.getpid()}")
        made = run("debootstrap", "--variant=minbase", f"--include={INCLUDED}", SUITE, str(root))
        if made.returncode:
            raise OSError(f"debootstrap failed: {(made.stdout.strip().splitlines() or ['no word'])[-1]}")
        packed = run("tar", "-cf", str(part), "--exclude=./var/cache/apt/archives/*.deb", "-C", str(root), ".")
        if packed.returncode:
            raise OSError(f"tar failed: {packed.stderr.strip()}")
        part.replace(CACHE)


def load_sources(path: Path) -> list[str]:
    """The pages of which tools/package makes HTML."""
    loader = importlib.machinery.SourceFileLoader("package_tool", str(path))
    spec = importlib.util.spec_from_loader("package_tool", loader)
    assert spec
    module = importlib.util.module_from_spec(spec)
    sys.modules["package_tool"] = module
    loader.exec_module(module)
    return [module.html_name(page) for page in module.pages()]


class Package(unittest.TestCase):
    """One root, from the first installation of the package to its last removal. The tests run by their names."""

    folder: Path
    root: Path
    tree: Path
    old: Path
    new: Path
    net: list[str]

    @classmethod
    def setUpClass(cls) -> None:
        cls.folder = Path(cls.enterClassContext(tempfile.TemporaryDirectory()))
        if not CACHE.is_file():
            make_archive()
        cls.root = cls.folder / "root"
        cls.root.mkdir()
        subprocess.run(["tar", "-xpf", CACHE, "-C", cls.root], check=True)
        cls.net = ["unshare", "--net"] if run("unshare", "--net", "true").returncode == 0 else []
        cls.tree = copy_tree(cls.folder / "tree")
        cls.old, cls.new = build(cls.tree, OLD, {}), build(cls.tree, NEW, LATE)

    def inside(self, *words: str, user: str = "root", folder: str = "/", input: str = "") -> str:
        """What a command in the root prints; it has to succeed."""
        settings = ("PATH=/usr/sbin:/usr/bin:/sbin:/bin", "LC_ALL=C.UTF-8", f"HOME={folder}")
        change = ("env", "-i", "-C", folder, *settings, "DEBIAN_FRONTEND=noninteractive")
        ended = run(*self.net, "chroot", f"--userspec={user}", str(self.root), *change, *words, input=input)
        self.assertEqual(ended.returncode, 0, f"{words}: {ended.stdout}{ended.stderr}")
        return ended.stdout

    def install(self, deb: Path) -> None:
        shutil.copy(deb, self.root / "package.deb")
        self.inside("dpkg", "--install", "/package.deb")
        self.assertEqual(self.inside("dpkg", "--verify", "kiwirudder"), "")

    def gm(self, command: str, *words: str) -> str:
        """What a command on the campaign prints."""
        return self.inside("atl_gm", command, "--db", "club.db", *words, user="kiwirudder:kiwirudder", folder=CLUB)

    def test_1_the_same_tree_gives_the_same_bytes(self) -> None:
        """Another folder, other times of files, another mask and another environment."""
        tree = self.folder / "another tree"
        shutil.copytree(self.tree, tree, ignore=shutil.ignore_patterns("out"))
        for path in tree.rglob("*"):
            os.utime(path, (1, 1))
        before = os.umask(0o077)
        try:
            environment = {"PATH": os.environ["PATH"], "TZ": "Asia/Tokyo"} | LATE
            again = run(str(tree / "tools/package"), "--version", NEW, env=environment)
        finally:
            os.umask(before)
        self.assertEqual(again.returncode, 0, again.stderr)
        self.assertEqual(checksum(tree / "out" / self.new.name), checksum(self.new))

    def test_1_a_release_of_other_sources_is_not_packed(self) -> None:
        whole = (self.tree / "crates.txt").read_bytes()
        (self.tree / "crates.txt").write_bytes(whole + b"# changed\n")
        ended = run(str(self.tree / "tools/package"), "--version", "0.1")
        (self.tree / "crates.txt").write_bytes(whole)
        self.assertEqual((ended.returncode, "not of these sources" in ended.stderr), (1, True))

    def test_1_the_libraries_that_the_program_needs(self) -> None:
        """Depends names libc6 of this version, which has all of these libraries or brings them."""
        if not shutil.which("objdump"):
            self.skipTest("objdump is missing: apt-get install binutils")
        subprocess.run(["dpkg-deb", "-x", self.new, self.folder / "unpacked"], check=True)
        text = run("objdump", "-Tp", str(self.folder / "unpacked/usr/bin/atl_gm")).stdout
        self.assertLessEqual({*re.findall(r"NEEDED +(\S+)", text)}, LIBRARIES)
        versions = {(int(major), int(minor)) for major, minor in re.findall(r"GLIBC_(\d+)\.(\d+)", text)}
        self.assertEqual(max(versions), LEAST_GLIBC)
        self.assertIn("libc6 (>= {}.{})".format(*LEAST_GLIBC), run("dpkg-deb", "-f", str(self.new), "Depends").stdout)

    def test_2_installed(self) -> None:
        self.install(self.old)
        for folder in ("var/lib/kiwirudder", "var/backups/kiwirudder"):
            self.assertEqual((self.root / folder).stat().st_mode & 0o777, 0o700)
        changelog = (TOP / "package/changelog").read_text(encoding="utf-8")
        date = parsedate_to_datetime(changelog.split(">  ")[1].split("\n")[0]).date()
        for line in run("dpkg-deb", "-c", str(self.old), env=os.environ | {"TZ": "UTC"}).stdout.splitlines():
            self.assertRegex(line, rf"^([d-]rwxr-xr-x|-rw-r--r--|lrwxrwxrwx) root/root +[0-9]+ {date} 00:00 ")
        self.assertNotEqual(self.inside("kiwirudder", "--help"), "")

    def test_3_used(self) -> None:
        self.inside("mkdir", CLUB, user="kiwirudder:kiwirudder")
        world = "/usr/share/kiwirudder/worlds/isle.toml"
        orders = self.root / CLUB.lstrip("/") / "orders.txt"
        orders.write_text("#ATLANTIS 1\nUNIT 1\nSTUDY lumberjack\n", encoding="utf-8")
        for words, answer in (
            (("found", "--world", world, "--pass", "mod"), "founded, 4 regions\n"),
            (("join", "--name", "Avalon", "--pass", "apple", "--seed", "3"), "faction 1, unit 1\n"),
            (("mail", "--faction", "1", "--pass", "apple", "--file", "orders.txt"), "1 orders, 0 faults\n"),
            (("close", "--month", "1", "--pass", "mod", "--seed", "3"), "month 1 closed\n"),
        ):
            self.assertEqual(self.gm(*words), answer)
        self.assertIn("Unit 1, line 3, STUDY: done 30.", self.report())
        self.assertIn("$ gm close", self.inside("/usr/share/kiwirudder/examples/first_hour.sh"))

    def report(self) -> str:
        return self.gm("report", "--faction", "1", "--pass", "apple")

    def test_4_served(self) -> None:
        if not self.net:
            self.skipTest("no network of its own can be made here")
        replies = self.inside("python3", "-", folder=CLUB, input=SERVE)
        self.assertIn('Atlantis report, month 1, faction 1 "Avalon".', replies)
        self.assertIn('{"faults":[],"orders":1}', replies)

    def command_of(self, unit: str) -> list[str]:
        """The command line of a unit, for the office's club."""
        text = (self.root / "lib/systemd/system" / unit).read_text(encoding="utf-8")
        command: str = re.findall(r"^ExecStart=(.*)$", text, re.MULTILINE)[0]
        return command.replace("%i", "office").split()

    def test_4_the_office_and_its_units(self) -> None:
        if not HAS_OFFICE:
            self.skipTest("there is no office here")
        user = "kiwirudder:kiwirudder"
        world = "/usr/share/kiwirudder/worlds/isle.toml"
        self.inside("kiwirudder", "init", "--world", world, "--moderator", "m@example.org", OFFICE_CLUB, user=user)
        for words in (("join", "Avalon", "ann@example.org"), ("status",), ("handout",)):
            self.inside("kiwirudder", *words, user=user, folder=OFFICE_CLUB)
        self.inside(*self.command_of("kiwirudder-backup@.service"), user=user, folder=OFFICE_CLUB)
        self.assertEqual(len([*self.root.glob("var/backups/kiwirudder/office/*/club.db")]), 1)
        if self.net:
            serve = self.command_of("kiwirudder@.service")
            self.inside("python3", "-c", SERVE_BY_UNIT, *serve, folder=OFFICE_CLUB)

    def test_5_the_pages(self) -> None:
        html = self.root / "usr/share/doc/kiwirudder/html"
        found = {str(path.relative_to(html)) for path in html.rglob("*.html")}
        self.assertEqual(found, {*load_sources(TOP / "tools/package")})
        for page in sorted(found):
            text = (html / page).read_text(encoding="utf-8")
            for target in re.findall(r'href="([^"]*)"', text):
                path, _, anchor = target.partition("#")
                if target.startswith(("http:", "https:")):
                    continue
                whole = (html / page).parent / path if path else html / page
                self.assertTrue(whole.is_file(), f"{page}: {target}")
                anchors = re.findall(r'id="([^"]*)"', whole.read_text(encoding="utf-8"))
                self.assertTrue(not anchor or anchor in anchors, f"{page}: {target}")

    def test_5_the_manual_page_has_each_command_and_option(self) -> None:
        source = (TOP / "package/atl_gm.1.md").read_text(encoding="utf-8")
        text = gzip.decompress((self.root / "usr/share/man/man1/atl_gm.1.gz").read_bytes()).decode()
        self.assertTrue(text.splitlines()[1].startswith(".") and ".TH \"ATL_GM\" \"1\"" in text, text[:200])
        commands = re.findall(r"^  (\w+) ", self.help(), re.MULTILINE)
        self.assertEqual(re.findall(r"^\*\*([a-z]+)\*\*\n:", source, re.MULTILINE), commands)
        for command in set(commands) - {"trial", "help"}:
            synopsis = next(line for line in source.splitlines() if line.startswith(f"**atl_gm {command}**"))
            options = re.findall(r"^ +(--\w+) <", self.help(command), re.MULTILINE)
            self.assertEqual({*re.findall(r"(--\w+)", synopsis)}, {*options}, command)
        explained = {*re.findall(r"^\*\*(--\w+)\*\* ", source, re.MULTILINE)}
        self.assertEqual(explained, {*re.findall(r"(--\w+)\*\* \*", source)})
        for option in explained:
            self.assertIn(option.replace("-", "\\-"), text)

    def help(self, *words: str) -> str:
        ended = run("chroot", str(self.root), "/usr/bin/atl_gm", *words, "--help")
        self.assertEqual(ended.returncode, 2)
        return ended.stderr

    def test_5_the_units(self) -> None:
        if not shutil.which("systemd-analyze"):
            self.skipTest("systemd-analyze is missing: apt-get install systemd")
        instances = []
        for unit in sorted((self.root / "lib/systemd/system").glob("kiwirudder*")):
            instance = self.folder / unit.name.replace("@", "@club")
            text = unit.read_text(encoding="utf-8").replace("/usr/bin/kiwirudder", "/bin/true")
            instance.write_text(text, encoding="utf-8")
            instances.append(str(instance))
        self.assertEqual(len(instances), 3)
        ended = run("systemd-analyze", "verify", "--man=no", *instances)
        complaints = [line for line in ended.stderr.splitlines() if "kiwirudder" in line]
        self.assertEqual(complaints, [])

    def test_6_upgraded(self) -> None:
        before = self.report()
        self.install(self.new)
        self.assertIn(NEW, self.inside("dpkg-query", "--show", "kiwirudder"))
        self.assertEqual(self.report(), before)

    def test_7_removed(self) -> None:
        campaign = self.root / CLUB.lstrip("/") / "club.db"
        held = checksum(campaign)
        for how in ("--remove", "--purge"):
            self.inside("dpkg", how, "kiwirudder")
            self.assertEqual(checksum(campaign), held)
        for pattern in ("usr/**/*kiwirudder*", "usr/bin/atl_gm", "lib/systemd/system/kiwirudder*"):
            self.assertEqual([*self.root.glob(pattern)], [])
        self.assertEqual((self.root / "var/backups/kiwirudder").exists(), HAS_OFFICE)


def skip(reason: str) -> None:
    print(f"package: {reason}")
    sys.exit(77)


def main() -> None:
    for tool in TOOLS:
        if not shutil.which(tool, path=f"{os.environ['PATH']}:/usr/sbin:/sbin"):
            skip(f"{tool} is missing: apt-get install {'dpkg' if tool == 'dpkg-deb' else tool}")
    if os.geteuid() != 0:
        skip("only root can make a Debian root: call it by sudo")
    os.environ["PATH"] += ":/usr/sbin:/sbin"
    try:
        if not CACHE.is_file():
            make_archive()
    except OSError as error:
        skip(f"{error}")
    unittest.main()


if __name__ == "__main__":
    main()
