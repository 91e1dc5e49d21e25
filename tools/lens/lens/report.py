"""A run as one HTML page, which asks nothing of a network: `lens report`."""
from __future__ import annotations

import base64
import hashlib
import html
import json
import re
from pathlib import Path

from .report_data import Data, Reported, run_data
from .report_steps import NAMED

PLACE = re.compile(r'\{\{(\w+)\}\}')
CONSOLE = 4_000
"""So many characters of the console are shown, the last ones."""


def report_page(reported: Reported) -> str:
    """The whole page."""
    data = run_data(reported)
    style, script = beside('report.css'), beside('report.js')
    output = reported.history.output
    parts = {
        'title': html.escape(f'{Path(output.name).name}: {output.end}'),
        'run': html.escape(Path(output.name).name),
        'end': html.escape(output.end),
        'about': html.escape(f'{output.name} · {reported.program.path} · {summary(data)}'),
        'why': ''.join(map(sentence, reported.why)),
        'console': html.escape(shown_console(output.console)),
        'policy': policy(style, script),
        'style': style,
        'script': script,
        'data': embedded(data),
    }
    return PLACE.sub(lambda found: parts[found[1]], beside('report.html'))


def beside(name: str) -> str:
    """The text of a file of this package."""
    return Path(__file__).with_name(name).read_text(encoding='utf-8')


def embedded(data: Data) -> str:
    """Data as JSON that can't end the element that it is in."""
    return json.dumps(data, separators=(',', ':'), ensure_ascii=True).replace('<', '\\u003c')


def policy(style: str, script: str) -> str:
    """What the page may do: use its own style and its own script, and nothing else."""
    return f"default-src 'none'; style-src '{digest(style)}'; script-src '{digest(script)}'"


def digest(text: str) -> str:
    return f'sha256-{base64.b64encode(hashlib.sha256(text.encode()).digest()).decode()}'


def summary(data: Data) -> str:
    """How long the run is, how much of it is shown, and on what it ran."""
    size, shown = data['size'], len(data['steps'])
    steps = f'{size} steps' if shown == size else f'{shown} of {size} steps are shown, the others are folded'
    return f'{steps}; {counted(data["harts"], "hart")}, {counted(data["threads"], "thread")}'


def counted(things: list[int], name: str) -> str:
    return f'{len(things)} {name}' + ('' if len(things) == 1 else 's')


def sentence(text: str) -> str:
    """A sentence of why the run ended so, with links to the steps that it names; one that only says more of
    the one before is set in."""
    linked = NAMED.sub(r'<a href="#\1">\g<0></a>', html.escape(text.strip()))
    return f'<p class="more">{linked}</p>\n' if text.startswith(' ') else f'<p>{linked}</p>\n'


def shown_console(console: bytes) -> str:
    """What the program printed; of a long text the end."""
    text = console.decode('utf-8', 'replace')
    more = len(text) - CONSOLE
    return f'(the first {more} characters are left out)\n{text[-CONSOLE:]}' if more > 0 else text
