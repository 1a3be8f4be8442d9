"""Tests of gate_cost: processes with the words of a prover, a chain worked out by hand, and a command that fails."""
import subprocess
import sys
import unittest
from pathlib import Path

from tests.tools.gate_cost import Costs, Prover, longest_chain, of_functions, report, watched

# a, then b beside c, then d, which waits for both; e waits for nothing
CRATES = "# lowest first\na:\nb: a sqlite\nc: a\nd: b c\ne:\n"
BUSY = "import time\nwhile time.process_time() < 2.5: pass"


def costs_of(seconds: dict[str, float]) -> Costs:
    costs = Costs()
    for crate, taken in seconds.items():
        costs.add(Prover(crate, "proof", taken, 10**9))
    return costs


class GateCost(unittest.TestCase):
    def test_a_prover_is_counted_for_its_crate(self) -> None:
        status, costs = watched([sys.executable, "-c", BUSY, "--crate-name", "atl_world"])
        self.assertEqual(status, 0)
        self.assertGreater(costs.seconds["atl_world", "proof"], 0.5)
        self.assertGreater(costs.memory["atl_world", "proof"], 10**6)

    def test_a_crate_of_tests_counts_as_tests(self) -> None:
        _, costs = watched([sys.executable, "-c", BUSY, "--crate-name", "atl_http_tests"])
        self.assertEqual([*costs.seconds], [("atl_http_tests", "tests")])

    def test_a_prover_in_a_folder_of_an_edit_counts_as_edits(self) -> None:
        script = f"mkdir -p rt-edit-x; cd rt-edit-x; {sys.executable} -c '{BUSY}' --crate-name atl_pots"
        room = subprocess.run(["mktemp", "-d"], capture_output=True, text=True, check=True).stdout.strip()
        _, costs = watched(["sh", "-c", f"cd {room}; {script}"])
        self.assertGreater(costs.seconds["atl_pots", "edits"], 0.5)

    def test_the_status_is_the_commands(self) -> None:
        self.assertEqual(watched(["sh", "-c", "exit 3"])[0], 3)

    def test_the_longest_chain_goes_by_what_a_crate_waits_for(self) -> None:
        costs = costs_of({"a": 10, "b": 5, "c": 7, "d": 1, "e": 15})
        self.assertEqual(longest_chain(CRATES, costs), (18.0, ["a", "c", "d"]))

    def test_sums_and_s(self) -> None:
        costs = costs_of({"a": 10, "b": 5, "c": 7, "d": 1, "e": 15})
        costs.add(Prover("d", "edits", 4, 10**9))
        costs.add(Prover(seconds=100))
        lines = report(costs, 2, CRATES)
        self.assertIn("proof 38 s, tests 0 s, edits 4 s, all 42 s or 21.0 S", lines)
        self.assertIn("the longest chain 18 s or 9.0 S: a, c, d", lines)

    def test_a_function_is_counted_by_its_modules(self) -> None:
        modules = {
            "Rattle-a.oantt": 10.0,
            "Rattle-a-proofs.books.row_sum.Lts.Given.oantt": 11.5,
            "Rattle-a-proofs.books.row_sum.Proof.oantt": 20.0,
            "Rattle-a-proofs.books.Books.new.Carried-2-1.oantt": 21.0,
            "Rattle-a-proofs.books.TheLinks.a-books.oantt": 21.5,
            "Rattle-a-proofs.BookLaws.oantt": 24.5,
            "Rattle-b-proofs.BookLaws.oantt": 30.0,
        }
        wanted = {"books.row_sum": 10.0, "books.Books.new": 1.0, "books": 0.5, "BookLaws": 3.0}
        self.assertEqual(of_functions("a", modules), wanted)

    def test_the_modules_of_a_prover_are_noted_as_it_runs(self) -> None:
        script = (
            "import os, pathlib, tempfile, time\n"
            "room = tempfile.TemporaryDirectory(prefix=f'rattle-logic-built-locked-{os.getpid()}-')\n"
            "for part in ('Goals', 'Proof'):\n"
            "    time.sleep(1.5)\n"
            "    pathlib.Path(room.name, f'Rattle-a-proofs.pots.share.{part}.oantt').touch()\n"
            "time.sleep(1.5)"
        )
        _, costs = watched([sys.executable, "-c", script, "--crate-name", "a"])
        self.assertGreater(costs.functions["a", "pots.share"], 1.4)
        self.assertIn("pots.share", report(costs, 1, CRATES)[-1])

    def test_a_missing_command_is_said(self) -> None:
        script = Path(__file__).with_name("gate_cost.py")
        ran = subprocess.run(
            [sys.executable, str(script), "rt", "ci"], capture_output=True, text=True, env={"PATH": "/nonexistent"}
        )
        self.assertEqual((ran.returncode, ran.stdout), (127, "gate_cost: rt isn't there\n"))


if __name__ == "__main__":
    unittest.main()
