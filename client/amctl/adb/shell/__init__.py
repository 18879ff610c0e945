"""The device's shell, as far as scripts use it through adb; what it doesn't have is refused by name before anything runs.

    tokens      words and operators
    tree        what a script is made of
    parser      a script of tokens
    expand      what words stand for: variables, what a command prints, sums
    runner      runs a script; other commands than its own are the device's
    builtins    the shell's own commands
    conditions  `[ .. ]` and `[[ .. ]]`
    arithmetic  `$(( .. ))`
    filters     grep, head, tail and others, which change what is piped through them
    sed         one of them
    patterns    regular expressions as grep and sed write them
"""
from amctl.adb.shell.parser import parse
from amctl.adb.shell.runner import Runner
from amctl.adb.shell.tree import Script

__all__ = ["Runner", "Script", "parse"]
