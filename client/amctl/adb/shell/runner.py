"""Runs a script of the device's shell."""
import dataclasses
import io
from collections.abc import Callable, Sequence
from dataclasses import dataclass, field

from amctl.adb.console import Console, Failed, NotServed
from amctl.adb.shell.builtins import BUILTINS, Ended
from amctl.adb.shell.conditions import holds_unsplit
from amctl.adb.shell.expand import Expander
from amctl.adb.shell.filters import FILTERS
from amctl.adb.shell.parser import script_of
from amctl.adb.shell.tokens import Token, Word
from amctl.adb.shell.tree import Branch, Command, Condition, Each, Group, Loop, Pipe, Redirected, Redirection, Script, Simple

OnDevice = Callable[[tuple[str, ...], Console], int]
STATUS = "?"


@dataclass
class Runner:
    """A script with its variables. What isn't the shell's own is given to the device."""

    on_device: OnDevice
    variables: dict[str, str] = field(default_factory=lambda: {STATUS: "0"})
    loops: int = 0
    # of what was last run within a word
    inner_status: int = 0

    def run(self, script: Script, console: Console) -> int:
        """Runs all of a script, and gives the status."""
        try:
            return self._script(script, console, "")
        except Ended as ended:
            return ended.status

    def _script(self, script: Script, console: Console, text: str) -> int:
        status = 0
        for step in script.steps:
            if step.runs_after(status):
                status = self._pipe(step.pipe, console, text)
                self.variables[STATUS] = str(status)
        return status

    def _pipe(self, pipe: Pipe, console: Console, text: str) -> int:
        *before, last = pipe.commands
        for command in before:
            out = io.StringIO()
            self._alone(command, dataclasses.replace(console, out=out), text)
            text = out.getvalue()
        status = self._alone(last, console, text) if before else self._command(last, console, text)
        return int(status == 0) if pipe.is_negated else status

    def _alone(self, command: Command, console: Console, text: str) -> int:
        """A part of a pipe, which is a shell of its own."""
        return self._in_own_shell(lambda: self._command(command, console, text))

    def _in_own_shell(self, run: Callable[[], int]) -> int:
        """What a shell of its own sets ends with it, and `exit` ends it alone."""
        before = dict(self.variables)
        try:
            return run()
        except Ended as ended:
            return ended.status
        finally:
            self.variables.clear()
            self.variables.update(before)

    def _command(self, command: Command, console: Console, text: str) -> int:
        if isinstance(command, Redirected):
            return self._command(command.command, _redirected(console, command.redirections), text)
        if isinstance(command, Simple):
            return self._simple(command, _redirected(console, command.redirections), text)
        if isinstance(command, Condition):
            return self._condition(command, console)
        if isinstance(command, Group):
            return self._script(command.script, console, text)
        if isinstance(command, Branch):
            return self._branch(command, console, text)
        self.loops += 1
        try:
            return self._loop(command, console, text) if isinstance(command, Loop) else self._each(command, console, text)
        finally:
            self.loops -= 1

    def _condition(self, condition: Condition, console: Console) -> int:
        return self._guarded(console, lambda: 0 if holds_unsplit(condition.words, self._expander(console)) else 1)

    def _branch(self, branch: Branch, console: Console, text: str) -> int:
        for condition, then in branch.cases:
            if self._script(condition, console, text) == 0:
                return self._script(then, console, text)
        return self._script(branch.otherwise, console, text)

    def _loop(self, loop: Loop, console: Console, text: str) -> int:
        status = 0
        while (self._script(loop.condition, console, text) != 0) == loop.is_until:
            status, goes_on = self._turn(loop.body, console, text)
            if not goes_on:
                break
        return status

    def _each(self, each: Each, console: Console, text: str) -> int:
        status = 0
        for value in self._words(each.words, console):
            self.variables[each.name] = value
            status, goes_on = self._turn(each.body, console, text)
            if not goes_on:
                break
        return status

    def _turn(self, body: Script, console: Console, text: str) -> tuple[int, bool]:
        """A turn of a loop: its status, and whether another one may follow."""
        try:
            return self._script(body, console, text), True
        except Ended as ended:
            if ended.how == "exit":
                raise
            return ended.status, ended.how == "continue"

    def _simple(self, command: Simple, console: Console, text: str) -> int:
        def run() -> int:
            self.inner_status = 0
            for name, word in command.assignments:
                self.variables[name] = self._expander(console).text(word)
            words = self._words(command.words, console)
            return self._named(words[0], words[1:], console, text) if words else self.inner_status

        return self._guarded(console, run)

    def _guarded(self, console: Console, run: Callable[[], int]) -> int:
        """Runs a command; if it fails or isn't served, the next one may run."""
        try:
            return run()
        except Failed as failed:
            return console.fail(failed)
        except NotServed as refused:
            # a loop might never end for what isn't served
            if self.loops:
                raise
            return console.refuse(refused)

    def _named(self, name: str, words: Sequence[str], console: Console, text: str) -> int:
        if name in BUILTINS:
            return BUILTINS[name](words, console)
        if name in FILTERS:
            found = FILTERS[name](words, text)
            console.write(found.text)
            return found.status
        return self.on_device((name, *words), console)

    def _words(self, words: Sequence[Word], console: Console) -> list[str]:
        expander = self._expander(console)
        return [it for word in words for it in expander.words(word)]

    def _expander(self, console: Console) -> Expander:
        return Expander(self.variables, lambda tokens: self._printed(tokens, console))

    def _printed(self, tokens: tuple[Token, ...], console: Console) -> str:
        """What commands within a word print."""
        out = io.StringIO()
        inner = dataclasses.replace(console, out=out)
        self.inner_status = self._in_own_shell(lambda: self._script(script_of(tokens), inner, ""))
        return out.getvalue()


def _redirected(console: Console, redirections: Sequence[Redirection]) -> Console:
    streams = {1: console.out, 2: console.err}
    for it in redirections:
        streams[it.of] = io.StringIO() if it.to is None else streams[it.to]
    return dataclasses.replace(console, out=streams[1], err=streams[2])
