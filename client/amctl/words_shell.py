"""Sentences of the device's shell: what it doesn't have, and what to do instead."""

OWN_SIDE = "to use it on your own side, put it outside the quotes"


def no_operator(operator: str) -> str:
    return (
        f"`{operator}` isn't served in the device's shell: to pass it in a word, quote it for that shell too,"
        f" as in adb shell \"am start -d 'http://a.example/?x=1&y=2'\"; {OWN_SIDE}."
    )


def no_word(word: str) -> str:
    return f"`{word}` isn't served in the device's shell: docs/ADB.md lists what is; {OWN_SIDE}."


def no_expansion(what: str) -> str:
    return f"`{what}` isn't expanded in the device's shell: put it in single quotes for that shell, or let your own shell expand it."


def no_variable(name: str) -> str:
    return (
        f"`${name}` isn't set in the device's shell: set it in the same line, put it in single quotes for that shell,"
        " or let your own shell expand it."
    )


def no_braces(braces: str) -> str:
    return f"`{braces}` isn't expanded in the device's shell: put it in single quotes for that shell, or write the words one by one."


def no_sum(text: str) -> str:
    return f"`$(({text}))` isn't computed in the device's shell: it has + - * / % and comparisons of whole numbers."


def no_redirection(operator: str) -> str:
    return (
        f"`{operator}` isn't served in the device's shell, except to or from /dev/null, and `2>&1`: there are no files on the device;"
        f" {OWN_SIDE}."
    )


def no_assignment(name: str) -> str:
    return f"`{name}=..` before a command isn't served in the device's shell: set it by a line of its own."


def no_condition(name: str) -> str:
    return (
        f"the condition {name} isn't served in the device's shell: it compares texts by = and !=, numbers by -eq, -ne, -lt, -le, -gt"
        " and -ge, and has -z and -n."
    )


def no_files(what: str) -> str:
    return f"{what} isn't served: there are no files on the device; filters read what is piped to them."


def no_option(name: str, option: str, why: str) -> str:
    return f"{name} isn't served with these words ({why or option}): {OWN_SIDE}."


def no_pattern(pattern: str) -> str:
    return f"the pattern {pattern} isn't served: it has to be a regular expression of POSIX."


def no_sed(script: str) -> str:
    return f"sed {script} isn't served: its commands here are p, d and s///, with g and p behind it, of lines by number, $ and /pattern/."


def open_quote(text: str) -> str:
    return f"a quote isn't closed for the device's shell: {text}"


def unclosed(opening: str) -> str:
    return f"{opening} isn't closed for the device's shell: close it in the same line."


def expected(word: str) -> str:
    return f"{word if ' ' in word else f'`{word}`'} is missing in this line of the device's shell: check what it begins and doesn't end."
