"""Checks data against a JSON Schema: the words that the schemas of `lens` use, and no others."""
from __future__ import annotations

import json
import re
from collections.abc import Iterator
from pathlib import Path
from typing import Any

FOLDER = Path(__file__).resolve().parents[1] / 'lens' / 'schemas'
KINDS: dict[str, tuple[type, ...]] = {
    'object': (dict,),
    'array': (list,),
    'string': (str,),
    'boolean': (bool,),
    'integer': (int,),
    'null': (type(None),),
}
SAID = {'$schema', '$defs', 'title', 'description'}
"""Words that ask for nothing."""
CHECKED = {
    '$ref', 'type', 'enum', 'pattern', 'minimum', 'maximum', 'minItems', 'maxItems', 'items',
    'properties', 'required', 'additionalProperties',
}  # fmt: skip
Schema = dict[str, Any]


def schema(name: str) -> Schema:
    return dict(json.loads((FOLDER / f'{name}.json').read_text()))


def faults(root: Schema, data: Any) -> list[str]:
    """Where data isn't as a schema says."""
    return list(faults_at(root, root, data, '$'))


def faults_at(root: Schema, rule: Schema, data: Any, at: str) -> Iterator[str]:
    if unknown := set(rule) - SAID - CHECKED:
        yield f'{at}: {unknown} isn\'t checked here'
    if '$ref' in rule:
        yield from faults_at(root, root['$defs'][rule['$ref'].removeprefix('#/$defs/')], data, at)
    if 'type' in rule and not is_of(rule['type'], data):
        yield f'{at}: {data!r} isn\'t of type {rule["type"]}'
        return
    if 'enum' in rule and data not in rule['enum']:
        yield f'{at}: {data!r} is none of {rule["enum"]}'
    if isinstance(data, str) and not re.search(rule.get('pattern', ''), data):
        yield f'{at}: {data!r} isn\'t like {rule["pattern"]}'
    if isinstance(data, int) and not rule.get('minimum', data) <= data <= rule.get('maximum', data):
        yield f'{at}: {data} is too small or too large'
    if isinstance(data, list):
        yield from faults_in_list(root, rule, data, at)
    if isinstance(data, dict):
        yield from faults_in_object(root, rule, data, at)


def is_of(kinds: str | list[str], data: Any) -> bool:
    named = [kinds] if isinstance(kinds, str) else kinds
    is_number = isinstance(data, int) and not isinstance(data, bool)
    return any(is_number if kind == 'integer' else isinstance(data, KINDS[kind]) for kind in named)


def faults_in_list(root: Schema, rule: Schema, data: list[Any], at: str) -> Iterator[str]:
    if not rule.get('minItems', 0) <= len(data) <= rule.get('maxItems', len(data)):
        yield f'{at}: {len(data)} items'
    for index, one in enumerate(data):
        yield from faults_at(root, rule['items'], one, f'{at}[{index}]')


def faults_in_object(root: Schema, rule: Schema, data: dict[str, Any], at: str) -> Iterator[str]:
    properties: Schema = rule.get('properties', {})
    yield from (f'{at}: {name} lacks' for name in rule.get('required', []) if name not in data)
    for name, one in data.items():
        if name in properties:
            yield from faults_at(root, properties[name], one, f'{at}.{name}')
        elif rule.get('additionalProperties') is False:
            yield f'{at}: {name} is unknown'
