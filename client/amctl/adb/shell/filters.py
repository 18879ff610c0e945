"""Commands that change what is piped through them, as toybox has them on a device."""
import getopt
import re
from collections.abc import Callable, Iterator, Mapping, Sequence
from dataclasses import dataclass

from amctl import words_shell
from amctl.adb.console import Failed, NotServed
from amctl.adb.shell import sed
from amctl.adb.shell.patterns import compiled

COUNT = re.compile(r"-([0-9]+)")
RANGES = re.compile(r"[0-9]*-?[0-9]*(?:,[0-9]*-?[0-9]*)*")
TR_CLASSES = {"[:upper:]": "A-Z", "[:lower:]": "a-z", "[:digit:]": "0-9", "[:alpha:]": "A-Za-z", "[:alnum:]": "0-9A-Za-z", "[:space:]": " \t\n\r\v\f"}
ESCAPES = {"n": "\n", "r": "\r", "t": "\t", "\\": "\\", "0": "\0"}
WRONG = 2


@dataclass(frozen=True)
class Filtered:
    text: str
    status: int = 0


Filter = Callable[[Sequence[str], str], Filtered]


def lines_of(text: str) -> list[str]:
    return text.removesuffix("\n").split("\n") if text else []


def text_of(lines: Sequence[str]) -> str:
    return "".join(f"{it}\n" for it in lines)


def _options(name: str, given: Sequence[str], known: str) -> tuple[list[tuple[str, str]], list[str]]:
    """The options of a command and its other words; one that isn't served is refused by name."""
    try:
        return getopt.gnu_getopt(list(given), known)
    except getopt.GetoptError as fault:
        raise NotServed(words_shell.no_option(name, str(fault.opt), fault.msg)) from None


def _no_files(name: str, files: Sequence[str]) -> None:
    others = [it for it in files if it != "-"]
    if others:
        raise NotServed(words_shell.no_files(f"{name} {others[0]}"))


def _number(name: str, text: str) -> int:
    if not text.isdecimal():
        raise Failed(f"{name}: bad number '{text}'", WRONG)
    return int(text)


def grep(given: Sequence[str], text: str, *, is_extended: bool = False, is_fixed: bool = False) -> Filtered:
    # nothing is coloured, and no line waits for another one
    told = [it for it in given if not it.startswith(("--color", "--colour", "--line-buffered"))]
    options, words = _options("grep", told, "EFGivqcnowxhsm:e:A:B:C:")
    last = dict(options)
    patterns = [value for name, value in options if name == "-e"] or words[:1]
    if not patterns:
        raise Failed("grep: no REGEX", WRONG)
    _no_files("grep", words[0 if "-e" in last else 1 :])
    pattern = _alternatives(patterns, last, is_extended=is_extended or "-E" in last, is_fixed=is_fixed or "-F" in last)
    lines = lines_of(text)
    hits = [at for at, line in enumerate(lines) if bool(pattern.search(line)) != ("-v" in last)]
    if "-m" in last:
        hits = hits[: _number("grep", last["-m"])]
    status = 0 if hits else 1
    if "-q" in last:
        return Filtered("", status)
    if "-c" in last:
        return Filtered(f"{len(hits)}\n", status)
    if "-o" in last:
        found = [(at, it[0]) for at in hits for it in pattern.finditer(lines[at]) if it[0]]
        return Filtered(text_of([f"{at + 1}:{it}" if "-n" in last else it for at, it in found]), status)
    return Filtered(text_of(list(_with_context(lines, hits, last))), status)


def _alternatives(patterns: Sequence[str], last: Mapping[str, str], *, is_extended: bool, is_fixed: bool) -> re.Pattern[str]:
    """Any of the patterns, each line of which is one, as a whole line (`-x`) or word (`-w`) if the options say so."""
    single = [it for whole in patterns for it in whole.split("\n")]
    joined = "|".join(f"(?:{re.escape(it) if is_fixed else compiled(it, is_extended=is_extended).pattern})" for it in single)
    joined = rf"^(?:{joined})$" if "-x" in last else rf"(?<!\w)(?:{joined})(?!\w)" if "-w" in last else joined
    return re.compile(joined, re.IGNORECASE if "-i" in last else 0)


def _with_context(lines: Sequence[str], hits: Sequence[int], last: Mapping[str, str]) -> Iterator[str]:
    """The lines that are found with those around them; `--` is between groups that don't touch."""
    before, after = (_number("grep", last.get(it) or last.get("-C") or "0") for it in ("-B", "-A"))
    shown = sorted({at for hit in hits for at in range(max(0, hit - before), min(len(lines), hit + after + 1))})
    for place, at in enumerate(shown):
        if place and at != shown[place - 1] + 1 and {"-A", "-B", "-C"} & set(last):
            yield "--"
        yield f"{at + 1}{':' if at in hits else '-'}{lines[at]}" if "-n" in last else lines[at]


def head(given: Sequence[str], text: str) -> Filtered:
    options, files = _options("head", _counted(given), "n:c:")
    _no_files("head", files)
    last = dict(options)
    if "-c" in last:
        return Filtered(text[: _number("head", last["-c"])])
    return Filtered(text_of(lines_of(text)[: _number("head", last.get("-n", "10"))]))


def tail(given: Sequence[str], text: str) -> Filtered:
    options, files = _options("tail", _counted(given), "n:")
    _no_files("tail", files)
    count = dict(options).get("-n", "10")
    lines = lines_of(text)
    if count.startswith("+"):
        return Filtered(text_of(lines[max(0, _number("tail", count[1:]) - 1) :]))
    number = _number("tail", count.removeprefix("-"))
    return Filtered(text_of(lines[-number:] if number else []))


def _counted(given: Sequence[str]) -> list[str]:
    """The words with `-5` written as `-n 5`."""
    return [part for it in given for part in (["-n", it[1:]] if COUNT.fullmatch(it) else [it])]


def wc(given: Sequence[str], text: str) -> Filtered:
    options, files = _options("wc", given, "lwcm")
    _no_files("wc", files)
    counts = {"-l": text.count("\n"), "-w": len(text.split()), "-c": len(text.encode()), "-m": len(text)}
    asked = [name for name in counts if name in dict(options)] or ["-l", "-w", "-c"]
    return Filtered(" ".join(str(counts[it]) for it in asked) + "\n")


def cut(given: Sequence[str], text: str) -> Filtered:
    options, files = _options("cut", given, "d:f:c:b:s")
    _no_files("cut", files)
    last = dict(options)
    which = last.get("-f") or last.get("-c") or last.get("-b")
    if which is None or not RANGES.fullmatch(which):
        raise Failed("cut: no -f or -c, or one that isn't a list of numbers" if which else "cut: Select only one of -b, -c, -f", 1)
    if "-f" not in last:
        return Filtered(text_of(["".join(_chosen(line, which)) for line in lines_of(text)]))
    by = last.get("-d", "\t")
    kept = [line for line in lines_of(text) if by in line or "-s" not in last]
    return Filtered(text_of([by.join(_chosen(line.split(by), which)) if by in line else line for line in kept]))


def _chosen(items: Sequence[str], which: str) -> list[str]:
    """The items of a list of ranges such as `1,3-`, in their own order."""
    wanted: set[int] = set()
    for part in which.split(","):
        first, dash, last = part.partition("-")
        start = int(first or "1")
        wanted |= set(range(start, int(last or len(items)) + 1 if dash else start + 1))
    return [it for at, it in enumerate(items, 1) if at in wanted]


def sort(given: Sequence[str], text: str) -> Filtered:
    options, files = _options("sort", given, "rnuf")
    _no_files("sort", files)
    last = dict(options)

    def key(line: str) -> tuple[float, str]:
        number = re.match(r"\s*(-?[0-9]+(?:\.[0-9]+)?)", line)
        return float(number[1]) if "-n" in last and number else 0.0, line.upper() if "-f" in last else line

    lines = sorted(lines_of(text), key=key, reverse="-r" in last)
    if "-u" in last:
        lines = list({(key(it)[0] if "-n" in last else key(it)): it for it in reversed(lines)}.values())[::-1]
    return Filtered(text_of(lines))


def uniq(given: Sequence[str], text: str) -> Filtered:
    options, files = _options("uniq", given, "c")
    _no_files("uniq", files)
    runs: list[tuple[int, str]] = []
    for line in lines_of(text):
        if runs and runs[-1][1] == line:
            runs[-1] = (runs[-1][0] + 1, line)
        else:
            runs.append((1, line))
    return Filtered(text_of([f"{count:7} {line}" if options else line for count, line in runs]))


def tr(given: Sequence[str], text: str) -> Filtered:
    options, sets = _options("tr", given, "ds")
    last = dict(options)
    if len(sets) != (1 if "-d" in last else 2) and not ("-s" in last and len(sets) == 1):
        raise Failed("tr: needs two sets of characters, or one with -d or -s", 1)
    found = [_characters(it) for it in sets]
    if "-d" in last:
        return Filtered("".join(it for it in text if it not in found[0]))
    if len(found) == 2 and found[1]:
        longer = found[1] + found[1][-1] * len(found[0])
        text = text.translate({ord(one): other for one, other in zip(reversed(found[0]), reversed(longer[: len(found[0])]))})
    if "-s" in last:
        text = re.sub(rf"([{re.escape(found[-1])}])\1+", r"\1", text)
    return Filtered(text)


def _characters(text: str) -> str:
    """The characters of a set: ranges, classes and escapes are written out."""
    for name, stands_for in TR_CLASSES.items():
        text = text.replace(name, stands_for)
    text = re.sub(r"\\([nrt\\0])", lambda it: ESCAPES[it[1]], text)
    return re.sub(r"([^\\])-(.)", lambda it: "".join(map(chr, range(ord(it[1]), ord(it[2]) + 1))), text)


def cat(given: Sequence[str], text: str) -> Filtered:
    _no_files("cat", given)
    return Filtered(text)


def sed_(given: Sequence[str], text: str) -> Filtered:
    options, words = _options("sed", given, "nErse:")
    last = dict(options)
    scripts = [value for name, value in options if name == "-e"] or words[:1]
    if not scripts:
        raise Failed("sed: no script", 1)
    _no_files("sed", words[0 if "-e" in last else 1 :])
    commands = [it for script in scripts for it in sed.read(script, is_extended="-E" in last or "-r" in last)]
    return Filtered(text_of(sed.run(commands, lines_of(text), prints="-n" not in last)))


def egrep(given: Sequence[str], text: str) -> Filtered:
    return grep(given, text, is_extended=True)


def fgrep(given: Sequence[str], text: str) -> Filtered:
    return grep(given, text, is_fixed=True)


FILTERS: Mapping[str, Filter] = {
    **{"grep": grep, "egrep": egrep, "fgrep": fgrep, "head": head, "tail": tail, "wc": wc, "cut": cut},
    **{"sed": sed_, "sort": sort, "uniq": uniq, "tr": tr, "cat": cat},
}
