"""What isn't served, over all invocations of a script: each leaves a line in a file, and the file is counted."""
import json
import os
import shlex
import subprocess
import sys
import tempfile
from collections import Counter
from collections.abc import Mapping, Sequence
from dataclasses import dataclass
from pathlib import Path

import amctl
from amctl import words_adb
from amctl.adb.console import Console
from amctl.errors import BadWords
from amctl.where import DEVICE_VARIABLE, STORE_VARIABLE, URL_VARIABLE, Where

VARIABLE = "AMCTL_REFUSED"
OF_SIGNALS = 128
ADB = '#!/bin/sh\nexport PYTHONPATH={package}${{PYTHONPATH:+:$PYTHONPATH}}\nexec {python} -m amctl.adb "$@"\n'


@dataclass(frozen=True)
class Tally:
    """How many commands there were, in how many something wasn't served, and how often which sentence said so."""

    commands: int
    refused: int
    sentences: Mapping[str, int]

    @property
    def line(self) -> str:
        return words_adb.tally(self.commands, self.refused)


def keep(refused: Sequence[str], environment: Mapping[str, str] = os.environ) -> None:
    """Adds what a command was refused to the file that the environment names, if it names one."""
    path = environment.get(VARIABLE)
    if not path:
        return
    try:
        with open(path, "a", encoding="utf-8") as file:
            file.write(json.dumps(list(refused)) + "\n")
    except OSError as fault:
        raise BadWords(words_adb.no_tally(path, fault.strerror or str(fault))) from None


def read(path: str | None) -> Tally:
    if not path:
        raise BadWords(words_adb.no_tally_named(VARIABLE))
    try:
        lines = [json.loads(it) for it in Path(path).read_text(encoding="utf-8").splitlines()]
    except FileNotFoundError:
        lines = []
    except (OSError, ValueError) as fault:
        raise BadWords(words_adb.no_tally(path, str(fault))) from None
    return Tally(len(lines), sum(map(bool, lines)), Counter(sentence for it in lines for sentence in it))


def summary(console: Console, environment: Mapping[str, str] = os.environ) -> int:
    """Prints what the file has: a line for all, and one for each sentence."""
    found = read(environment.get(VARIABLE))
    console.say(found.line)
    for sentence, count in sorted(found.sentences.items(), key=lambda it: (-it[1], it[0])):
        console.say(f"{count:>4}  {sentence}")
    return 0


def run_strictly(script: Sequence[str], where: Where, console: Console, environment: Mapping[str, str] = os.environ) -> int:
    """Runs a script whose `adb` is this one, and says at its end what wasn't served. The status is 1 if something wasn't."""
    if not script:
        raise BadWords(words_adb.no_value("--strict"))
    with tempfile.TemporaryDirectory(prefix="amctl-adb-") as folder:
        program = Path(folder) / "adb"
        program.write_text(ADB.format(package=shlex.quote(str(Path(amctl.__file__).parents[1])), python=shlex.quote(sys.executable)), encoding="utf-8")
        program.chmod(0o700)
        file = environment.get(VARIABLE) or str(Path(folder) / "refused")
        own = {"PATH": f"{folder}{os.pathsep}{environment.get('PATH', os.defpath)}", VARIABLE: file, **_variables(where)}
        before = read(file)
        sys.stdout.flush()
        status = subprocess.run([*_interpreter(script[0]), *script], env={**environment, **own}).returncode
        found = read(file)
    refused = found.refused - before.refused
    console.note(words_adb.tally(found.commands - before.commands, refused))
    return (OF_SIGNALS - status if status < 0 else status) or int(refused > 0)


def _variables(where: Where) -> dict[str, str]:
    """What the words say of the device, for the invocations in the script."""
    given = {DEVICE_VARIABLE: where.device, URL_VARIABLE: where.url, STORE_VARIABLE: where.store, "AM": where.am}
    return {name: str(value) for name, value in given.items() if value is not None}


def _interpreter(script: str) -> list[str]:
    """The words before a script: those of its first line, or else the shell's."""
    try:
        with open(script, encoding="utf-8", errors="replace") as file:
            first = file.readline()
    except OSError as fault:
        raise BadWords(words_adb.no_script(script, fault.strerror or str(fault))) from None
    return shlex.split(first[2:]) if first.startswith("#!") else ["sh"]
