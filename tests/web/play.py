"""Runs all cases of tests/web: starts campaigns, nginx and a browser, asks the lines of web/nginx.conf, and plays on
the page. Called by tests/web/web.sh with a folder for its files, and perhaps one for pictures of the page."""
import os
import signal
import sys

from access import Access
from checks import Checks
from club import HERE, Club, Proxy
from driver import Browser, Driver
from files import Files
from lines import Lines
from page import Cases, Page, hostile_world
from signing import Signing
from texts import Texts
from world import World


def play(folder, shots):
    checks = Checks()
    clubs, stops = [], []
    try:
        world = os.path.join(HERE, 'worlds', 'coast.toml')
        for name, text in (('lines', world), ('page', world), ('texts', world), ('hostile', hostile_world(folder)),
                           ('world', world)):
            clubs.append(Club(folder, name, text))
            stops.append(clubs[-1].stop)
            clubs[-1].start()
        proxy = Proxy(folder)
        stops.append(proxy.stop)
        Lines(checks, clubs[0], proxy).all()
        driver = Driver(folder)
        stops.append(driver.stop)
        page = Page(Browser(driver), proxy, shots)
        Cases(checks, page, clubs[1], clubs[3]).all()
        Texts(checks, page, clubs[2]).all()
        Signing(checks, page, clubs[2]).all()
        Access(checks, page, clubs[2]).all()
        Files(checks, page, clubs[2]).all()
        World(checks, page, clubs[4]).all()
    finally:
        for stop in reversed(stops):
            stop()
    return checks.failed


if __name__ == '__main__':
    signal.signal(signal.SIGTERM, lambda *_: sys.exit(1))
    failed = play(sys.argv[1], sys.argv[2] if len(sys.argv) > 2 else None)
    if failed:
        print(f'web: {failed} differences')
    sys.exit(1 if failed else 0)
