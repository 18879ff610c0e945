"""What `amctl check` writes: the table, JSON, SARIF and JUnit XML, valid by their schemas."""
import copy
import io
import json
import xml.etree.ElementTree as ET
from collections.abc import Callable
from pathlib import Path
from typing import Any

import jsonschema  # type: ignore[import]  # Debian has no stubs of it
import pytest

from amctl.check import Asked, Report, main
from amctl.errors import BadWords
from amctl.findings.finding import Finding
from amctl.findings.junit import write as write_junit
from amctl.findings.report import write_text
from amctl.lint import main as lint
from amctl.words_check import RULES
from amctl.words_lint import RULES as LINT_RULES
from check_files import Checked, app, component, device, filter_of
from conftest import EXAMPLES

HERE = Path(__file__).parent
SARIF = json.loads((HERE / "sarif_schema.json").read_text(encoding="utf-8"))
JUNIT = json.loads((HERE / "junit_schema.json").read_text(encoding="utf-8"))
GALLERY = Asked(EXAMPLES / "gallery.toml", EXAMPLES / "device.toml")


def printed(form: str, asked: Asked = GALLERY, severity: str = "error") -> str:
    out = io.StringIO()
    main(asked, form=form, severity=severity, out=out)
    return out.getvalue()


def tree(element: ET.Element) -> dict[str, Any]:
    """An element as its schema has it."""
    text = (element.text or "").strip()
    return {"tag": element.tag, "attributes": dict(element.attrib), "text": text, "children": [tree(it) for it in element]}


def test_sarif_is_valid_and_says_what_json_says() -> None:
    sarif, found = json.loads(printed("sarif")), json.loads(printed("json"))["findings"]
    jsonschema.validate(sarif, SARIF)
    run = sarif["runs"][0]
    rules = run["tool"]["driver"]["rules"]
    assert [it["id"] for it in rules] == list(RULES)
    assert len(run["results"]) == len(found) > 10
    for result, finding in zip(run["results"], found):
        assert rules[result["ruleIndex"]]["id"] == result["ruleId"] == finding["rule"]
        assert result["level"] == finding["severity"] == rules[result["ruleIndex"]]["defaultConfiguration"]["level"]
        region = result["locations"][0]["physicalLocation"]["region"]
        assert (region["startLine"], region["startColumn"]) == (finding["line"], finding["column"])
        assert result["partialFingerprints"] == {"amctlCheck/v1": finding["id"]}
        assert result["properties"] == {"compared": finding["compared"], "exchanges": finding["exchanges"]}
        assert finding["message"] in result["message"]["text"]


def broken_level(sarif: dict[str, Any]) -> None:
    sarif["runs"][0]["results"][0]["level"] = "fatal"


def broken_line(sarif: dict[str, Any]) -> None:
    sarif["runs"][0]["results"][0]["locations"][0]["physicalLocation"]["region"]["startLine"] = 0


def broken_key(sarif: dict[str, Any]) -> None:
    sarif["runs"][0]["results"][0]["severity"] = "error"


@pytest.mark.parametrize("breaks", [broken_level, broken_line, broken_key])
def test_the_schema_refuses_what_sarif_does_not_have(breaks: Callable[[dict[str, Any]], None]) -> None:
    sarif = json.loads(printed("sarif"))
    broken = copy.deepcopy(sarif)
    breaks(broken)
    with pytest.raises(jsonschema.ValidationError):
        jsonschema.validate(broken, SARIF)


@pytest.mark.parametrize("severity, failures", [("error", 1), ("warning", 7), ("note", 14)])
def test_junit_is_valid_and_counts_right(severity: str, failures: int) -> None:
    suites = ET.fromstring(printed("junit", severity=severity))
    jsonschema.validate(tree(suites), JUNIT)
    cases = list(suites.iter("testcase"))
    found = json.loads(printed("json"))["findings"]
    silent = set(RULES) - {it["rule"] for it in found}
    assert len(cases) == len(found) + len(silent) == int(suites.attrib["tests"])
    assert len(list(suites.iter("failure"))) == failures == int(suites.attrib["failures"])
    assert len(list(suites.iter("system-out"))) == len(found) - failures
    assert {it.attrib["name"] for it in cases if not len(it)} == silent


def test_the_schema_refuses_what_junit_does_not_have() -> None:
    suites = ET.fromstring(printed("junit"))
    ET.SubElement(suites[0][0], "finding")
    with pytest.raises(jsonschema.ValidationError):
        jsonschema.validate(tree(suites), JUNIT)


def test_junit_of_texts_that_xml_cannot_hold() -> None:
    out = io.StringIO()
    write_junit(Report(Path("a.toml"), Path("d.toml"), (Finding("opens", "x\u0001<&>", "says \ufffe"),)), "note", out)
    case = ET.fromstring(out.getvalue().partition("\n")[2])[0][0]
    assert case.attrib["name"] == "opens: x\ufffd<&>"
    assert case[0].attrib["message"] == "says \ufffd"


def test_an_app_that_cannot_be_read_in_every_form(tmp_path: Path) -> None:
    asked = Checked(tmp_path, manifest="package =\n").asked()
    jsonschema.validate(json.loads(printed("sarif", asked)), SARIF)
    suites = ET.fromstring(printed("junit", asked))
    jsonschema.validate(tree(suites), JUNIT)
    assert suites.attrib["failures"] == "1"
    assert printed("text", asked).startswith("error  unreadable  1:10  compared  app.toml\n    `am` refuses the manifest")


def test_the_table(tmp_path: Path) -> None:
    checked = Checked(tmp_path, device(app(component(filters=[filter_of()]), package="com.old")), app(component(filters=[filter_of()])))
    assert checked.printed() == (
        0,
        "warning  asks           6:18  by am  -a x.A\n"
        "    opened com.old/.C, and now asks among com.old/.C and com.new/.C (tied with it)\n"
        "note     open-activity  5:1   by am  com.new/.C\n"
        "    any app reaches com.new/.C: exported by its filter (x.A), without a permission\n"
        "0 errors, 1 warning and 1 note\n",
    )
    assert Checked(tmp_path).printed() == (0, f"{tmp_path / 'app.toml'}: nothing found.\n")


class Terminal(io.StringIO):
    def isatty(self) -> bool:
        return True


def test_the_table_of_a_terminal() -> None:
    out = Terminal()
    write_text(Report(Path("a.toml"), Path("d.toml"), (Finding("affinity", "com.new/.C", "[bold]said"),)), out)
    assert "affinity" in out.getvalue() and "[bold]" in out.getvalue() and "┃" in out.getvalue()
    assert out.getvalue().endswith("0 errors, 1 warning and 0 notes\n")


def test_json_has_every_field(tmp_path: Path) -> None:
    status, text = Checked(tmp_path, manifest=app(component("service"))).printed(form="json")
    document = json.loads(text)
    assert set(document) == {"app", "device", "findings", "hidden", "leftOut"}
    assert set(document["findings"][0]) == {"id", "rule", "group", "severity", "file", "at", "line", "column", "about", "message", "compared", "exchanges"}
    exchange = document["findings"][0]["exchanges"][0]
    assert exchange == {
        "state": "after",
        "request": {"method": "POST", "path": "/v1/explain", "body": {"as": "amctl.check", "intent": {"component": "com.new/com.new.C"}, "kind": "service", "of": "com.new"}},
        "response": {"status": 200, "body": {"accounts": [{"to": "com.new/com.new.C", "verdict": "reached"}]}},
    }


def test_no_key_is_shown() -> None:
    whole = "".join(printed(it) for it in ("text", "json", "sarif", "junit"))
    assert '"k1"' not in whole and '"sys"' not in whole


FAULTY = """system_key = "sys"
browser = "com.onee"
[[package]]
key = "k1"
manifest = { package = "com.one", activity = [{ name = ".A", exported = true }, { name = ".B", exported = true }] }
"""


@pytest.fixture
def faulty(tmp_path: Path) -> Path:
    file = tmp_path / "device.toml"
    file.write_text(FAULTY, encoding="utf-8")
    return file


def linted(file: Path, **words: Any) -> tuple[int, str]:
    out = io.StringIO()
    return lint(file, out=out, **words), out.getvalue()


def test_lint_is_told_in_the_same_forms(faulty: Path) -> None:
    document = json.loads(linted(faulty, form="json")[1])
    assert set(document) == {"device", "findings", "hidden"}
    found = document["findings"]
    assert [(it["rule"], it["severity"], it["line"], it["about"]) for it in found] == [
        ("spelling", "warning", 2, "device.toml"),
        ("unguarded", "warning", 5, "com.one/com.one.A"),
        ("unguarded", "warning", 5, "com.one/com.one.B"),
    ]
    sarif = json.loads(linted(faulty, form="sarif")[1])
    jsonschema.validate(sarif, SARIF)
    run = sarif["runs"][0]
    assert run["tool"]["driver"]["name"] == "amctl lint"
    assert [it["id"] for it in run["tool"]["driver"]["rules"]] == list(LINT_RULES)
    assert [it["partialFingerprints"] for it in run["results"]] == [{"amctlLint/v1": it["id"]} for it in found]
    suites = ET.fromstring(linted(faulty, form="junit")[1])
    jsonschema.validate(tree(suites), JUNIT)
    assert (suites.attrib["failures"], suites.attrib["tests"]) == ("3", str(3 + len(LINT_RULES) - 2))
    assert {it.attrib["classname"] for it in suites.iter("testcase")} == {f"amctl.lint.{it}" for it in ("file", "keys", "values", "access", "store")}


def test_a_baseline_of_lint_hides_what_only_moved(faulty: Path, tmp_path: Path) -> None:
    baseline = tmp_path / "baseline.json"
    baseline.write_text(linted(faulty, form="json")[1], encoding="utf-8")
    assert linted(faulty, baseline=baseline) == (0, f"{faulty}: nothing new.\n")
    # another package before it, and a fault of its own
    other = '[[package]]\nkey = "k2"\nmanifest = { package = "com.two", service = [{ name = ".S", exported = true }] }\n[[package]]'
    faulty.write_text(FAULTY.replace("[[package]]", other, 1), encoding="utf-8")
    status, said = linted(faulty, baseline=baseline)
    assert (status, said.splitlines()[0].partition(": ")[2]) == (1, "unguarded: any app reaches com.two/com.two.S by its name, and no intent finds it: give it the filter that it is exported for, or a `permission`, or write `exported = false`.")
    assert said.count("unguarded") == 1
    assert json.loads(linted(faulty, baseline=baseline, form="json")[1])["hidden"] == 3


def test_a_severity_of_lint(faulty: Path) -> None:
    assert [linted(faulty, severity=it)[0] for it in ("note", "warning", "error")] == [1, 1, 0]
    faulty.write_text(FAULTY.replace("key = \"k1\"", "key = 1"), encoding="utf-8")
    assert linted(faulty, severity="error")[0] == 1
    for wrong in ({"severity": "fatal"}, {"form": "xml"}):
        with pytest.raises(BadWords, match="take one of"):
            linted(faulty, **wrong)


def test_a_baseline_of_a_check_is_none_of_lint_s_findings(faulty: Path, tmp_path: Path) -> None:
    baseline = tmp_path / "baseline.json"
    baseline.write_text(printed("json"), encoding="utf-8")
    assert linted(faulty, baseline=baseline) == linted(faulty)
