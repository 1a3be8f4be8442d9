"""The commands of the club's papers. They can be called without the rest of the office:
`python3 -m office.papers.command COMMAND ..`, in the folder that has the folder `office`."""

import argparse
import os
import sys
from collections.abc import Collection, Iterable, Iterator, Sequence
from pathlib import Path

from office.errors import OfficeError
from office.papers import pageworld
from office.papers.chronicle import Secrecy
from office.papers.chronicle import chronicle as chronicle_page
from office.papers.database import from_database
from office.papers.handout import PARTS
from office.papers.handout import handout as handout_page
from office.papers.history import gather
from office.papers.months import Month, month_numbers, read_month, read_months
from office.papers.situation import Situation, from_reports
from office.papers.world import read_world
from office.papers.worldmap import map_page, map_svg

MONTHS = "months"
PAGES = (".html", ".htm")
# The rights of new files, of which the umask takes away its own.
OWNER_ALONE, EVERYBODY = 0o600, 0o666
DOCS = Path(__file__).resolve().parents[2] / "docs"


def chronicle(club_dir: Path, month: int, public: bool, out: Path, club: str = "") -> None:
    """Writes the chronicle of a closed month, from the folder `months` of the club's folder."""
    chronicle_of(club_dir / MONTHS, month, public, out, club)


def chronicle_of(months: Path, month: int, public: bool, out: Path, club: str = "") -> None:
    """The same for a folder `months` that is elsewhere."""
    history = gather(_shown(read_months(months, month), month))
    write(out, chronicle_page(history, Secrecy.PUBLIC if public else Secrecy.OPEN, club), is_secret=not public)


def _shown(months: Iterable[Month], last: int) -> Iterator[Month]:
    """The months, with a line of progress where somebody watches."""
    for month in months:
        if sys.stderr.isatty():
            print(f"\rreading month {month.number} of {last}", end="" if month.number < last else "\n", file=sys.stderr)
        yield month


def map(club_dir: Path, month: int, out: Path) -> None:
    """Writes the map of the world after a month, from the database file that has it, or else from the reports.

    The copy before-N.db of the next month has it, or club.db if the month was the last one to be closed."""
    for name in (f"before-{month + 1}.db", "club.db"):
        path = club_dir / name
        if path.exists():
            situation = from_database(path)
            if situation.month == month:
                return write_map(situation, out)
    return write_map(from_reports(read_month(club_dir / MONTHS, month)), out)


def write_map(situation: Situation, out: Path) -> None:
    """Writes the map, as a page with a table if the file's name ends with `.html`, or else as SVG."""
    write(out, map_page(situation) if out.suffix.lower() in PAGES else map_svg(situation), is_secret=True)


def handout(world: Path, out: Path, regions: bool = True, docs: Path = DOCS, club: str = "",
            parts: Collection[str] = PARTS) -> None:
    """Writes the handout for players, as one page. `docs` is the folder with the guide and the rules."""
    write(out, handout_page(read_world(world), docs, regions, club, parts))


def page_world(world: Path, out: Path, regions: bool = True) -> None:
    """Writes `world.json`, for the folder of the players' page."""
    write(out, pageworld.page_world(read_world(world), regions))


def write(out: Path, text: str, is_secret: bool = False) -> None:
    """Writes a file as a whole, or leaves the one that was there. Only its owner can read a secret one. OfficeError if
    it can't be written."""
    if not out.name:
        raise OfficeError(f"{out} is no file: name the file to write")
    part = out.with_name(f".{out.name}.part")
    try:
        part.unlink(missing_ok=True)
        part.touch(OWNER_ALONE if is_secret else EVERYBODY)
        part.write_text(text, encoding="utf-8")
        os.replace(part, out)
    except OSError as error:
        _remove(part)
        raise OfficeError(f"{out} can't be written: {error.strerror}") from error


def _remove(part: Path) -> None:
    try:
        part.unlink(missing_ok=True)
    except OSError:
        pass  # The folder isn't there, or can't be written: then the part isn't there either.


def _parser() -> argparse.ArgumentParser:
    parser = argparse.ArgumentParser(prog="papers", description="Makes the club's papers.")
    commands = parser.add_subparsers(dest="command", required=True, metavar="COMMAND")
    chronicle_parser = commands.add_parser("chronicle", help="write the chronicle of a closed month as HTML")
    _add_months(chronicle_parser)
    chronicle_parser.add_argument("--open", action="store_true", help="show also what each faction and each market has")
    chronicle_parser.add_argument("--club", default="", metavar="NAME", help="the club's name, for the title")
    map_parser = commands.add_parser("map", help="write a map of the whole world, as SVG or (OUT.html) as a page")
    source = map_parser.add_mutually_exclusive_group(required=True)
    source.add_argument("--db", type=Path, metavar="FILE", help="a database file, such as before-4.db for month 3")
    source.add_argument("--months", type=Path, metavar="DIR", help="the club's folder months, for its reports")
    map_parser.add_argument("--month", type=int, metavar="M", help="the month, the last one if it isn't given")
    map_parser.add_argument("--out", type=Path, required=True, metavar="OUT", help="the file to write")
    handout_parser = commands.add_parser("handout", help="write guide, rules and prices as one page for players")
    _add_world(handout_parser, "the file to write, such as handout.html")
    handout_parser.add_argument("--docs", type=Path, default=DOCS, metavar="DIR",
                                help="the folder with PLAYER.md and RULES.md")
    handout_parser.add_argument("--only", choices=PARTS, action="append", help="this part alone; may be given again")
    handout_parser.add_argument("--club", default="", metavar="NAME", help="the club's name, for the title")
    page = commands.add_parser("page-world", help="write world.json for the players' page")
    _add_world(page, "the file to write, such as web/world.json")
    return parser


def _add_world(parser: argparse.ArgumentParser, out: str) -> None:
    parser.add_argument("world", type=Path, metavar="WORLD", help="the world file")
    parser.add_argument("out", type=Path, metavar="OUT", help=out)
    parser.add_argument("--no-regions", action="store_true", help="leave out the regions and their markets")


def _add_months(parser: argparse.ArgumentParser) -> None:
    parser.add_argument("--months", type=Path, required=True, metavar="DIR", help="the club's folder months")
    parser.add_argument("--month", type=int, metavar="M", help="the month, the last one if it isn't given")
    parser.add_argument("--out", type=Path, required=True, metavar="FILE", help="the file to write")


def _month(chosen: argparse.Namespace) -> int:
    given: int | None = chosen.month
    return month_numbers(chosen.months)[-1] if given is None else given


def _situation(chosen: argparse.Namespace) -> Situation:
    if not chosen.db:
        return from_reports(read_month(chosen.months, _month(chosen)))
    situation = from_database(chosen.db)
    if chosen.month not in (None, situation.month):
        raise OfficeError(f"{chosen.db} has month {situation.month}, and not month {chosen.month}")
    return situation


def _run(chosen: argparse.Namespace) -> None:
    match chosen.command:
        case "chronicle":
            chronicle_of(chosen.months, _month(chosen), not chosen.open, chosen.out, chosen.club)
        case "map":
            write_map(_situation(chosen), chosen.out)
        case "handout":
            handout(chosen.world, chosen.out, not chosen.no_regions, chosen.docs, chosen.club, chosen.only or PARTS)
        case "page-world":
            page_world(chosen.world, chosen.out, not chosen.no_regions)


def main(arguments: Sequence[str] | None = None) -> int:
    """Runs a command, and returns its status."""
    chosen = _parser().parse_args(arguments)
    try:
        _run(chosen)
    except OfficeError as error:
        print(f"papers: {error.text}", file=sys.stderr)
        return error.status
    return 0


if __name__ == "__main__":
    sys.exit(main())
