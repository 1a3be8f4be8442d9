"""When mail for the open month must have come."""

from __future__ import annotations

from datetime import datetime, timedelta

from office.club.club import Club
from office.club.files import read_json, write_json
from office.club.settings import Settings


def deadline_after(settings: Settings, closed: datetime) -> datetime | None:
    """The deadline of the month that is open since `closed`; None where the club has none."""
    if settings.next_deadline and settings.next_deadline > closed:
        return settings.next_deadline
    if not settings.deadline:
        return None
    weekday, hour, minute = settings.deadline
    earliest = closed + timedelta(days=settings.least_days)
    day = (earliest + timedelta(days=(weekday - earliest.weekday()) % 7)).replace(tzinfo=None)
    moment = day.replace(hour=hour, minute=minute, second=0, microsecond=0).astimezone()
    return moment if moment > earliest else (moment.replace(tzinfo=None) + timedelta(days=7)).astimezone()


class Closings:
    """When each month was closed, as the office noted it. Month 0 is the founding."""

    def __init__(self, club: Club) -> None:
        self.path = club.places.record("closings")
        self.times: dict[str, str] = read_json(self.path, {})

    def when(self, month: int) -> datetime | None:
        text = self.times.get(str(month))
        return datetime.fromisoformat(text) if text else None

    def note(self, month: int, now: datetime) -> None:
        """Notes the first time alone: a call that finishes what was stopped changes nothing."""
        if str(month) not in self.times:
            write_json(self.path, {**self.times, str(month): now.isoformat(timespec="seconds")})
            self.times = read_json(self.path, {})

    def forget_from(self, month: int) -> None:
        """For a club that goes back to before this month."""
        self.times = {key: value for key, value in self.times.items() if int(key) < month}
        write_json(self.path, self.times)


def open_deadline(club: Club, month: int) -> datetime | None:
    """The deadline of the month after `month`, which was closed last."""
    closed = Closings(club).when(month)
    return deadline_after(club.settings, closed) if closed else None


def in_words(moment: datetime) -> str:
    return f"{moment.astimezone():%a %Y-%m-%d %H:%M}"
