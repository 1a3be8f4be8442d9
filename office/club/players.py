"""Who plays: the file players.toml, which has the addresses of each faction's player."""

from __future__ import annotations

import json
import re
import tomllib
from dataclasses import dataclass, replace
from pathlib import Path
from typing import Any

from office.club.files import write_file
from office.errors import OfficeError

MOST_ADDRESS = 254
HEAD = """\
# The players of this club. `kiwirudder join`, `address` and `substitute` write this file. You may change it by hand too;
# other comments are not kept. Mail without a pass text counts for a faction only from one of its addresses. Letters go
# to the first one.
"""
_ADDRESS = re.compile(r"[A-Za-z0-9.!#$%&'*+/=?^_`{|}~-]+@[A-Za-z0-9-]+(\.[A-Za-z0-9-]+)*")


@dataclass(frozen=True)
class Player:
    """The player of a faction. Until the closing of month `until` mail of `substitute` counts as theirs."""

    faction: int
    addresses: tuple[str, ...]
    substitute: str = ""
    until: int = 0

    def letters_to(self, month: int) -> tuple[str, ...]:
        """Where letters of the open month go."""
        first = self.addresses[:1]
        return (*first, self.substitute) if self.substitute and month <= self.until else first

    def may_write_from(self, address: str, month: int) -> bool:
        if self.substitute and month <= self.until and address == self.substitute.lower():
            return True
        return address in (known.lower() for known in self.addresses)


def check_address(address: str) -> str:
    """The address; OfficeError where it isn't one plain address of letters, digits and signs."""
    if len(address) <= MOST_ADDRESS and _ADDRESS.fullmatch(address):
        return address
    raise OfficeError(f"{address!r} is no address of the form name@host")


def _player(number: int, table: Any) -> Player:
    where = f"players.toml: player {number}"
    if not isinstance(table, dict):
        raise OfficeError(f"{where} must be a table: write [[player]] above its lines")
    known = {"faction", "addresses", "substitute", "until"}
    for key in table.keys() - known:
        raise OfficeError(f"{where}: there is no key {key}: is it misspelled?")
    faction, addresses = table.get("faction"), table.get("addresses", [])
    if not isinstance(faction, int) or not isinstance(addresses, list):
        raise OfficeError(f"{where} needs a line faction = NUMBER, and addresses = [\"name@host\"]")
    substitute, until = table.get("substitute", ""), table.get("until", 0)
    if not isinstance(substitute, str) or not isinstance(until, int):
        raise OfficeError(f"{where}: substitute is an address, and until the number of a month")
    for address in [*addresses, *([substitute] if substitute else [])]:
        check_address(str(address))
    return Player(faction, tuple(addresses), substitute, until)


def read_players(path: Path) -> dict[int, Player]:
    """By faction. OfficeError where the file is no list of players, or has a faction twice."""
    try:
        whole = tomllib.loads(path.read_text("utf-8"))
    except FileNotFoundError:
        return {}
    except (tomllib.TOMLDecodeError, UnicodeDecodeError, OSError) as error:
        raise OfficeError(f"players.toml can't be read: {error}") from None
    players: dict[int, Player] = {}
    for number, table in enumerate(whole.get("player", []), 1):
        player = _player(number, table)
        if player.faction in players:
            raise OfficeError(f"players.toml has faction {player.faction} twice")
        players[player.faction] = player
    return players


def _text(player: Player) -> str:
    lines = ["", "[[player]]", f"faction = {player.faction}",
             f"addresses = [{', '.join(json.dumps(address) for address in player.addresses)}]"]
    if player.substitute:
        lines += [f"substitute = {json.dumps(player.substitute)}", f"until = {player.until}"]
    return "\n".join(lines) + "\n"


def write_players(path: Path, players: dict[int, Player]) -> None:
    write_file(path, (HEAD + "".join(_text(players[faction]) for faction in sorted(players))).encode())


def with_addresses(players: dict[int, Player], faction: int, addresses: tuple[str, ...]) -> dict[int, Player]:
    """The same players, but for the addresses of one faction."""
    old = players.get(faction, Player(faction, ()))
    return {**players, faction: replace(old, addresses=addresses)}
