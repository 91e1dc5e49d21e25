"""What sweeps came to as a file of JUnit's form, which CI services show: a test case for each ELF file.

The form is that of JUnit's Ant task (`testsuites`, `testsuite`, `testcase`, `failure`, `error`, `skipped`).
"""
from __future__ import annotations

import re
from xml.etree.ElementTree import Element, SubElement, indent, tostring

from lens.output import shown_console

from .reports import Failure, Report

SUITE = 'sweep'
NOT_XML = re.compile(r'[^\t\n\r\x20-\ud7ff\ue000-\ufffd\U00010000-\U0010ffff]')
"""What no XML file may have (XML 1.0, section 2.2)."""


def junit_text(reports: list[Report]) -> bytes:
    """The file as a whole."""
    suites = Element('testsuites')
    suite = SubElement(suites, 'testsuite', {'name': SUITE, **counts(reports)})
    for report in reports:
        add_case(suite, report)
    indent(suites)
    return bytes(tostring(suites, encoding='utf-8', xml_declaration=True)) + b'\n'


def counts(reports: list[Report]) -> dict[str, str]:
    seconds = sum(report.seconds for report in reports)
    return {
        'tests': str(len(reports)),
        'failures': str(sum(not report.fault and bool(report.failures) for report in reports)),
        'errors': str(sum(bool(report.fault) for report in reports)),
        'skipped': str(sum(report.is_skipped for report in reports)),
        'time': f'{seconds:.3f}',
    }


def add_case(suite: Element, report: Report) -> None:
    case = SubElement(
        suite, 'testcase', {'classname': SUITE, 'name': clean(report.elf), 'time': f'{report.seconds:.3f}'}
    )
    if report.fault:
        SubElement(case, 'error', {'message': clean(report.fault), 'type': 'fault'})
    elif report.is_skipped:
        SubElement(case, 'skipped', {'message': 'no run was made'})
    elif report.failures:
        end = clean(report.failures[0].outcome.end)
        failure = SubElement(case, 'failure', {'message': clean(report.summary()), 'type': end})
        failure.text = clean(''.join(map(told, report.failures)))
    if report.runs:
        SubElement(case, 'system-out').text = f'{report.runs} of {report.asked} runs were made\n'


def told(failure: Failure) -> str:
    """What is said of an outcome that wasn't expected."""
    console = shown_console(failure.outcome.console)
    runs = 'run' if failure.runs == 1 else 'runs'
    return f'{failure.words}: {failure.runs} {runs}, console {console}\n    {failure.again}\n'


def clean(words: str) -> str:
    """The words with a `?` for each character that no XML file may have."""
    return NOT_XML.sub('?', words)
