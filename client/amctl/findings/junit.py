"""Findings as JUnit XML, which build servers show as tests: a finding from the chosen severity on is a failure."""
import re
import xml.etree.ElementTree as ET
from typing import TextIO

from amctl.findings.finding import Finding
from amctl.findings.report import Report
from amctl.findings.rule import Severity, at_least

# what XML 1.0 can't hold
FORBIDDEN = re.compile("[^\t\n\r\u0020-\ud7ff\ue000-\ufffd\U00010000-\U0010ffff]")


def write(report: Report, least: Severity, out: TextIO) -> None:
    failures = sum(at_least(it.severity, least) for it in report.findings)
    found = {it.rule for it in report.findings}
    # a rule that found nothing passed
    passed = [rule for rule in report.rules if rule not in found]
    counts = {"tests": str(len(report.findings) + len(passed)), "failures": str(failures), "errors": "0"}
    suites = ET.Element("testsuites", counts)
    suite = ET.SubElement(suites, "testsuite", {"name": _text(f"amctl {report.tool} {report.file}"), "skipped": "0", **counts})
    for finding in report.findings:
        _case(suite, finding, report, least)
    for rule in passed:
        ET.SubElement(suite, "testcase", {"classname": _class(report, rule), "name": rule, "time": "0"})
    ET.indent(suites)
    print('<?xml version="1.0" encoding="UTF-8"?>', file=out)
    print(ET.tostring(suites, encoding="unicode"), file=out)


def _case(suite: ET.Element, found: Finding, report: Report, least: Severity) -> None:
    name = f"{found.rule}: {found.about}" if found.about else found.rule
    case = ET.SubElement(suite, "testcase", {"classname": _class(report, found.rule), "name": _text(name), "time": "0"})
    where = f"{report.file}:{found.place}" if found.place else str(report.file)
    said = _text(f"{where}: {found.severity}: {found.message}")
    if at_least(found.severity, least):
        ET.SubElement(case, "failure", {"type": found.rule, "message": _text(found.message)}).text = said
    else:
        ET.SubElement(case, "system-out").text = said


def _class(report: Report, rule: str) -> str:
    return f"amctl.{report.tool}.{report.rules[rule].group.replace(' ', '-')}"


def _text(value: str) -> str:
    return FORBIDDEN.sub("\ufffd", value)
