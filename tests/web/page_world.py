"""Prints what world.json has of a world file: page_world.py WORLD. The tests of the page use it."""
import json
import sys
import tomllib
from typing import Any

KEYS = {
    'terrain': ('name', 'land', 'wage', 'places', 'money_limit', 'peasant_limit', 'output'),
    'item': ('name', 'weight', 'carry', 'skill', 'level', 'raw', 'raw_count'),
    'skill': ('name', 'fee'),
    'kind': ('name', 'ship', 'material', 'size', 'skill', 'level', 'capacity', 'crew', 'helps'),
    'region': ('number', 'name', 'terrain', 'north', 'south', 'east', 'west'),
}
DEFAULTS: dict[str, dict[str, Any]] = {
    'terrain': {'output': {}}, 'item': {'level': 1, 'raw_count': 1}, 'kind': {'capacity': 0, 'crew': 0},
}


def rows(world: dict[str, Any], table: str) -> list[dict[str, Any]]:
    found = [DEFAULTS.get(table, {}) | row for row in world.get(table, [])]
    return [{key: row[key] for key in KEYS[table] if key in row} for row in found]


def page_world(name: str, text: str) -> dict[str, Any]:
    """The value of world.json, with regions and markets."""
    world = tomllib.loads(text)
    markets = [{'region': region['number']} | market
               for region in world['region'] for market in region.get('market', [])]
    return {'format': 1, 'name': name, 'rules': world['rules'], **{table: rows(world, table) for table in KEYS},
            'market': markets}


if __name__ == '__main__':
    with open(sys.argv[1], encoding='utf-8') as file:
        print(json.dumps(page_world('world', file.read())))
