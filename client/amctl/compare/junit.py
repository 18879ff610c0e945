"""What was compared as JUnit XML: a question is a test, a difference a failure, and what wasn't compared is skipped."""
import re
import xml.etree.ElementTree as ET
from typing import TextIO

from amctl.compare.report import Compared, Report, details

# what XML 1.0 can't hold
FORBIDDEN = re.compile("[^\t\n\r\u0020-\ud7ff\ue000-\ufffd\U00010000-\U0010ffff]")


def write(report: Report, out: TextIO) -> None:
    counts = report.counts
    numbers = {"tests": str(counts["asked"]), "failures": str(counts["differ"]), "errors": "0"}
    suites = ET.Element("testsuites", numbers)
    name = f"amctl compare {report.suite} {report.serial}"
    suite = ET.SubElement(suites, "testsuite", {"name": _text(name), "skipped": str(counts["unasked"]), **numbers})
    for it in report.compared:
        _case(suite, it, report)
    ET.indent(suites)
    print('<?xml version="1.0" encoding="UTF-8"?>', file=out)
    print(ET.tostring(suites, encoding="unicode"), file=out)


def _case(suite: ET.Element, it: Compared, report: Report) -> None:
    case = ET.SubElement(suite, "testcase", {"classname": f"amctl.compare.{it.question.ask}", "name": _text(it.question.name), "time": "0"})
    if it.differs:
        said = list(details(it, report))
        answers = "; ".join(line for line in said if line.startswith(("phone ", "am ")))
        ET.SubElement(case, "failure", {"type": "differs", "message": _text(answers)}).text = _text("\n".join(said))
    elif not it.agrees:
        ET.SubElement(case, "skipped", {"message": _text(it.why_not or it.phone.why_not)})


def _text(value: str) -> str:
    return FORBIDDEN.sub("\ufffd", value)
