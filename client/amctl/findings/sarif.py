"""Findings as SARIF 2.1.0, which code hosts show beside the line."""
import json
from typing import Any, TextIO
from urllib.parse import quote

from amctl.findings.finding import Finding
from amctl.findings.report import Report
from amctl.findings.rule import Rule

SCHEMA = "https://json.schemastore.org/sarif-2.1.0.json"
VERSION = "2.1.0"


def write(report: Report, out: TextIO) -> None:
    rules = [_rule(name, rule) for name, rule in report.rules.items()]
    driver = {"name": f"amctl {report.tool}", "rules": rules}
    results = [_result(it, report) for it in report.findings]
    run = {"tool": {"driver": driver}, "columnKind": "unicodeCodePoints", "results": results, "properties": {"leftOut": report.left_out}}
    json.dump({"$schema": SCHEMA, "version": VERSION, "runs": [run]}, out, ensure_ascii=False, indent=1, sort_keys=True)
    print(file=out)


def _rule(name: str, rule: Rule) -> dict[str, Any]:
    return {
        "id": name,
        "shortDescription": {"text": rule.finds},
        "defaultConfiguration": {"level": rule.severity},
        "properties": {"group": rule.group},
    }


def _result(found: Finding, report: Report) -> dict[str, Any]:
    place: dict[str, Any] = {"artifactLocation": {"uri": quote(str(report.file))}}
    if found.place:
        place["region"] = {"startLine": found.place.line, "startColumn": found.place.column}
    return {
        "ruleId": found.rule,
        "ruleIndex": list(report.rules).index(found.rule),
        "level": found.severity,
        "message": {"text": f"{found.about}: {found.message}" if found.about else found.message},
        "locations": [{"physicalLocation": place}],
        "partialFingerprints": {f"amctl{report.tool.title()}/v1": found.id},
        "properties": {"compared": found.is_compared, "exchanges": [it.to_json() for it in found.exchanges]},
    }
