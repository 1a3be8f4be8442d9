"""Reads what there is in each region from the database file of a campaign. It reads a copy, so that nothing is left
beside the file, and no command of the program is kept waiting."""

import shutil
import sqlite3
import tempfile
from collections.abc import Iterator
from pathlib import Path

from office.errors import OfficeError
from office.papers.situation import Scene, Situation, Structure, Unit
from office.papers.world import Region, World, parse_world

FORMAT = 2


def from_database(path: Path) -> Situation:
    """What the campaign of a file has. OfficeError if the file can't be read, is being changed, or is no database of a
    campaign of today's format."""
    with tempfile.TemporaryDirectory() as folder:
        connection = sqlite3.connect(_copy(path, Path(folder)))
        try:
            return _read(connection, path)
        except (sqlite3.Error, LookupError, UnicodeDecodeError) as error:
            raise OfficeError(f"{path} is no database file of a campaign: {error}") from error
        finally:
            connection.close()


def _copy(path: Path, folder: Path) -> Path:
    """A copy of the file with its log, both of the same moment."""
    log = path.with_name(f"{path.name}-wal")
    try:
        before = list(_stamps(path, log))
        for file in (path, log):
            if file.exists():
                shutil.copyfile(file, folder / file.name)
        after = list(_stamps(path, log))
    except OSError as error:
        raise OfficeError(f"{path} can't be read: {error.strerror}") from error
    if before != after:
        raise OfficeError(f"{path} is being changed: stop serve and all other commands, and call this again")
    return folder / path.name


def _stamps(path: Path, log: Path) -> Iterator[tuple[int, int]]:
    """When each file was changed last, and its size. OSError if the first is not there."""
    for file in [path, *([log] if log.exists() else [])]:
        state = file.stat()
        yield state.st_mtime_ns, state.st_size


def _read(connection: sqlite3.Connection, path: Path) -> Situation:
    campaign = connection.execute("SELECT format, month, world FROM campaign").fetchone()
    if not campaign or campaign[0] != FORMAT:
        raise OfficeError(f"{path} is no campaign of today's format. If it is an older one, upgrade it")
    world = parse_world(campaign[2].removeprefix("\ufeff"), path.stem, str(path))
    factions: dict[int, str] = dict(connection.execute("SELECT number, name FROM faction ORDER BY number"))
    units, structures, stocks = _units(connection), _structures(connection, world), _stocks(connection, world)
    regions = {region.number: region for region in world.regions}
    scenes = {
        number: Scene(peasants, money, tuple(units.get(number, ())), tuple(structures.get(number, ())),
                      _known(regions[number], stocks))
        for number, peasants, money in connection.execute("SELECT number, peasants, money FROM region")
    }
    return Situation(campaign[1], f"From the database file {path.name}.", world, factions, scenes)


def _units(connection: sqlite3.Connection) -> dict[int, list[Unit]]:
    """The units of each region."""
    units: dict[int, list[Unit]] = {}
    columns = 'region, number, name, faction, men, "guard", structure'
    for region, number, name, faction, men, guard, inside in connection.execute(
            f"SELECT {columns} FROM unit ORDER BY number"):
        units.setdefault(region, []).append(Unit(number, name, faction, men, guard == 1 and men > 0, inside))
    return units


def _structures(connection: sqlite3.Connection, world: World) -> dict[int, list[Structure]]:
    """The structures of each region."""
    structures: dict[int, list[Structure]] = {}
    for region, number, name, kind, done, owner in connection.execute(
            "SELECT region, number, name, kind, done, owner FROM structure ORDER BY number"):
        it = world.kinds[kind]
        structures.setdefault(region, []).append(Structure(number, name, it.name, it.ship, done, it.size, owner))
    return structures


def _stocks(connection: sqlite3.Connection, world: World) -> dict[tuple[int, str], int]:
    """The stocks that aren't 0, by regions and names of items."""
    rows = connection.execute("SELECT region, item, stock FROM market")
    return {(region, world.items[item].name): stock for region, item, stock in rows}


def _known(region: Region, stocks: dict[tuple[int, str], int]) -> dict[str, int]:
    """The stock of each market of the region."""
    return {market.item: stocks.get((region.number, market.item), 0) for market in region.markets}
