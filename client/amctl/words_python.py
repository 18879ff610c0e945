"""What a command's sentences advise, in Python's words: for a test that fails, and for a refusal that a program gets."""
import dataclasses
import re

from amctl.intents import Intent

COMMAND = re.compile(r"`amctl ([a-z-]+)((?: [^`]*)?)`")
OPTION = re.compile(r"`-([a-z])(?: ([^`]*))?`")
WITHOUT_CALLER = re.compile(r",? or leave out `--as`")
FIELDS = {"a": "action", "d": "data", "t": "type", "n": "component", "p": "package", "c": "categories", "f": "flags"}
SEVERAL = ("categories", "flags")
# the commands that ask as an app, if one is named
OF_APP = {"why": "explain", "start": "start", "start-service": "start_service", "broadcast": "send"}


def in_python(text: str) -> str:
    """A sentence with the words of commands in it, as a Python program would say them."""
    return OPTION.sub(_field, COMMAND.sub(_call, WITHOUT_CALLER.sub("", text)))


def intent(found: Intent) -> str:
    """An intent as a program writes it."""
    given = {it.name: getattr(found, it.name) for it in dataclasses.fields(found)}
    return f"Intent({', '.join(f'{name}={value!r}' for name, value in given.items() if value not in (None, (), {}))})"


def _call(command: re.Match[str]) -> str:
    name, given = command[1], [_bare(it) for it in command[2].split()]
    if name in OF_APP:
        # what a question is about stands beside the sentence
        kind = [repr(given[given.index("--kind") + 1])] if "--kind" in given else []
        return f"`{OF_APP[name]}({', '.join([*kind, '..'])})`"
    words = [repr(it) for it in given if not it.startswith("-")]
    others = {"--denied": "approved=False"}
    if name == "revoke":
        name, words = "grant", [*words, "held=False"]
    words += [others[it] for it in given if it in others]
    return f"`device.system.{name.replace('-', '_')}({', '.join(words)})`"


def _bare(word: str) -> str:
    """A word without the quotes that a shell takes away."""
    return word[1:-1] if len(word) > 1 and word[0] == word[-1] == "'" else word


def _field(option: re.Match[str]) -> str:
    name = FIELDS.get(option[1])
    if name is None:
        return option[0]
    if option[2] is None:
        return f"`{name}`"
    return f"`{name}={(option[2],) if name in SEVERAL else option[2]!r}`"
