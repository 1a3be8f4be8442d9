"""A campaign that the program itself keeps: each command is a process of its own."""
import os, re, subprocess
from pathlib import Path

PASS, MODERATOR = "pw", "moderator"
ROOT = Path(__file__).resolve().parents[3]


class Club:
    def __init__(self, folder, world, seed):
        self.db, self.orders, self.seed = os.path.join(folder, "club.db"), os.path.join(folder, "orders.txt"), str(seed)
        self.gm("found", "--world", world, "--pass", MODERATOR)

    def gm(self, command, *options):
        words = [os.path.join(ROOT, "gm"), command, "--db", self.db, *options]
        ran = subprocess.run(words, stdin=subprocess.DEVNULL, capture_output=True, text=True)
        if ran.returncode:
            raise SystemExit(f"simulate: {' '.join(words)}: status {ran.returncode}, {ran.stderr.strip()}")
        return ran.stdout

    def join(self, name):
        answer = self.gm("join", "--name", name, "--pass", PASS, "--seed", self.seed)
        return int(re.match(r"faction (\d+), ", answer)[1])

    def mail(self, faction, text):
        """The faulty lines of a mailing, as the answer lists them."""
        with open(self.orders, "w") as file:
            file.write(text)
        answer = self.gm("mail", "--faction", str(faction), "--pass", PASS, "--file", self.orders)
        return answer.splitlines()[1:]

    def close(self, month):
        self.gm("close", "--month", str(month), "--pass", MODERATOR, "--seed", self.seed)

    def report(self, faction):
        return self.gm("report", "--faction", str(faction), "--pass", PASS)

    def books(self):
        return self.gm("books")
