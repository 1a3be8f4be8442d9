"""Where everything of a club is: each path stands here once."""

from __future__ import annotations

from dataclasses import dataclass
from pathlib import Path


@dataclass(frozen=True)
class Places:
    """The paths below a club's folder `root`."""

    root: Path

    @property
    def settings(self) -> Path:
        return self.root / "club.toml"

    @property
    def players(self) -> Path:
        return self.root / "players.toml"

    @property
    def campaign(self) -> Path:
        return self.root / "club.db"

    @property
    def pass_text(self) -> Path:
        return self.root / "pass"

    @property
    def seed(self) -> Path:
        return self.root / "seed"

    @property
    def seed_checksum(self) -> Path:
        return self.root / "seed.sha256"

    @property
    def months(self) -> Path:
        return self.root / "months"

    def month(self, month: int) -> Path:
        return self.months / str(month)

    def unfinished_month(self, month: int) -> Path:
        return self.months / f"{month}.part"

    def copy_before(self, month: int) -> Path:
        return self.root / f"before-{month}.db"

    @property
    def incoming(self) -> Path:
        return self.root / "mail" / "in"

    def taken(self, month: int) -> Path:
        return self.root / "mail" / "taken" / str(month)

    def taken_folders(self) -> list[Path]:
        """Those of all months in which mail was taken."""
        return sorted(path for path in (self.root / "mail" / "taken").glob("*") if path.is_dir())

    @property
    def held(self) -> Path:
        return self.root / "mail" / "held"

    @property
    def refused(self) -> Path:
        return self.root / "mail" / "refused"

    @property
    def dropped(self) -> Path:
        return self.root / "mail" / "dropped"

    @property
    def aside(self) -> Path:
        return self.root / "mail" / "aside"

    @property
    def again(self) -> Path:
        """Mailings of months that were undone, until they are taken again."""
        return self.root / "mail" / "again"

    @property
    def out(self) -> Path:
        return self.root / "out"

    @property
    def sent(self) -> Path:
        return self.out / "sent"

    @property
    def failed(self) -> Path:
        return self.out / "failed"

    @property
    def undone(self) -> Path:
        return self.root / "undone"

    @property
    def state(self) -> Path:
        return self.root / "office"

    @property
    def log(self) -> Path:
        return self.state / "log"

    @property
    def office_lock(self) -> Path:
        return self.state / "office.lock"

    @property
    def serve_lock(self) -> Path:
        return self.state / "serve.lock"

    def record(self, name: str) -> Path:
        """A file of the office's own state, as JSON."""
        return self.state / f"{name}.json"

    def folders(self) -> list[Path]:
        """The folders that a club has from its founding on."""
        return [self.months, self.incoming, self.held, self.refused, self.dropped, self.aside, self.again, self.sent,
                self.failed, self.state]
