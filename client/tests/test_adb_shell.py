"""The device's shell: what it prints is what this machine's own shell and tools print, and what it doesn't have is refused."""
import io
import subprocess

import pytest

from amctl.adb.console import Console, NotServed
from amctl.adb.shell import Runner, parse

LINES = "echo 'package:com.b'; echo 'package:com.a x'; echo; echo '  10 Ab*c'; echo '9 ab+c'; echo 'package:com.b'"
# each is run by `sh` too
ALIKE = [
    "echo a  b; echo 'a  b'; echo \"a  b\"",
    "echo 'http://a/?x=1&y=$2' \"\\$\\\"\\\\d\" a\\ b\\;",
    "A='1  2'; echo $A; echo \"$A\"; echo x$A.y; B=$A; echo \"$B\"",
    "A=; echo $A a ''$A b; [ -z $A ] && echo none",
    "A=' 1 '; echo a${A}b; echo \"a${A}b\"",
    "echo $(echo one; echo two) `echo three`; echo \"$(echo one; echo two)\"; echo $(echo \"$(echo in)\")",
    "A=1; A=2 | cat; echo $A; { A=3; echo b; } | cat; echo $A; echo $(A=4; echo $A) $A; exit 3 | cat; echo $?; echo a | { exit 4; }; echo $?",
    "echo a/b | sed 's/a\\/b/c\\/d/'; echo 'a,b' | sed 's,\\,,;,'; echo abc | tr abc x; echo abc | tr -s a-c y",
    "false || echo `echo t` $?; echo \"$(false)$?\"",
    "A=$(false); echo $?; A=$(exit 3) || echo $?; A=$(echo a) && echo $A $?",
    "true && echo a || echo b; false && echo a || echo b; ! true; echo $?; ! false | true; echo $?",
    "false; echo $?; true | false; echo $?; false | true; echo $?",
    "if false; then echo a; elif true; then echo b; else echo c; fi; if false; then echo a; fi; echo $?",
    "i=0; while [ $i -lt 5 ]; do i=$((i+1)); [ $i -eq 2 ] && continue; [ $i -eq 4 ] && break; echo $i; done; echo end $i",
    "i=0; until [ $i = 3 ]; do i=$((i + 1)); done; echo $i",
    "a=x; for a in 1 '2 3' $(echo 4 5); do echo \"<$a>\"; done | sort -r; echo \"$a\" | wc -l",
    "{ echo a; echo b; } | grep b; { echo c; } >/dev/null; echo d 2>&1 >/dev/null; echo e 1>&2",
    "echo $((1 + 2 * 3)) $(( (7 - 10) / 2 )) $((-7 % 3)) $((2 < 3)) $((3 == 4))",
    "A=4; echo $((A * $A))",
    "echo a # a comment; echo b\necho c",
    "echo a;\n\necho b &&\necho c ||\necho d",
    "echo one \\\n two",
    "[ a = a ] && [ a != b ] && [ 1 -le 2 ] && [ -n x ] && [ ! -z x ] && [ x ] && test 3 -gt 2; echo $?",
    "[ a = b ] || [ ]; echo $?; [ a = a -a 1 -eq 2 ]; echo $?; [ a = b -o 1 -eq 1 ]; echo $?",
    "exit 4; echo never",
    "while true; do exit 5; done",
    *(
        f"{{ {LINES}; }} | {it}"
        for it in (
            "grep com", "grep -v com", "grep -i AB", "grep -c com", "grep -n com.b", "grep -q com; echo $?", "grep -q none; echo $?",
            "grep -o 'com[^ ]*'", "grep -E 'com\\.(a|b)$'", "grep -E '^ *[0-9]+ '", "grep 'com\\.\\(a\\|b\\)'", "grep -F 'b*c'", "grep 'Ab\\*c'",
            "grep 'b+c'", "grep -E 'b\\+c'", "grep '^[[:space:]]*1'", "grep '[^a-z:. ]'", "grep -x 'package:com.b'", "grep -w ab", "grep -m 1 com",
            "grep -e none -e 9", "egrep 'a x|9'", "fgrep +", "grep -A 1 'a x'", "grep -B 1 -n 9", "grep -C 1 10", "grep -A 0 com", "grep --color=never com", "grep -no 'com[^ ]*'", "grep '*c'", "grep 'c$'", "grep 'a$b'; echo $?",
            "head -n 2", "head -2", "head", "head -c 5", "tail -n 2", "tail -1", "tail -n +5", "wc -l", "wc -w", "wc -c",
            "cut -d: -f2", "cut -d : -f 1", "cut -c 1-3", "cut -c 3-", "cut -d' ' -f 2-3", "cut -s -d: -f2",
            "sort | uniq", "sort -r", "sort -u", "sort -n", "sort | uniq -c", "tr a-z A-Z", "tr -d ':.'", "tr -s ' '", "tr '[:lower:]' '[:upper:]'", "tr ab x",
            "sed -n 2p", "sed -n '2,3p'", "sed -n '$p'", "sed -n '/com/p'", "sed 1d", "sed '/com/d'", "sed '2,4d'", "sed 's/package://'", "sed 's/c/C/g'",
            "sed -n 's/.*com/X/p'", "sed 's/\\(com\\)\\.\\(.\\)/\\2-\\1-&/'", "sed -E 's/(a|b)+/<&>/g'", "sed 's/c*/&-/g'", "sed s/o*m/X/p", "sed 's|:|/|;s,/,::,'", "sed -e 's/a/1/' -e 's/1/2/'",
            "sed '/10/,/9/d'", "cat | cat -",
        )
    ),
]  # fmt: skip


def ran(text: str, device: str = "") -> tuple[str, str, int]:
    """What a script prints, and its status; commands of the device print the second text."""
    console = Console(io.StringIO(), io.StringIO())

    def on_device(words: tuple[str, ...], to: Console) -> int:
        if words[0] == "unserved":
            raise NotServed("unserved isn't served: it isn't there.")
        to.write(device or " ".join(words) + "\n")
        return 7 if words[0] == "seven" else 0

    status = Runner(on_device).run(parse(text), console)
    assert isinstance(console.out, io.StringIO) and isinstance(console.err, io.StringIO)
    return console.out.getvalue(), console.err.getvalue(), status


@pytest.mark.parametrize("text", ALIKE)
def test_it_prints_what_a_shell_prints(text: str) -> None:
    shell = subprocess.run(["sh", "-c", text], capture_output=True, text=True, env={"LC_ALL": "C.UTF-8", "PATH": "/usr/bin:/bin"})
    assert ran(text) == (shell.stdout, shell.stderr, shell.returncode)


@pytest.mark.parametrize(
    "text, printed",
    [
        ("[[ -z $(am x | tr -d '\\r\\n amx') ]] && echo empty", "empty\n"),
        ("A='a b'; [[ $A == 'a b' && -n $A ]] && echo same", "same\n"),
        ("[[ abc == a* ]] && [[ abc != 'a*' ]] && [[ ! abc = b* ]] && echo like", "like\n"),
        ("[[ 3 -gt 2 || x -gt 2 ]] && echo more", "more\n"),
        ("echo -n a; echo -e 'b\\tc'; echo -E 'd\\n'", "ab\tc\nd\\n\n"),
        ("echo a &>/dev/null; unserved &>/dev/null; echo b", "b\n"),
        ("seven; echo $?; am start | cut -d ' ' -f 2", "seven\n7\nstart\n"),
    ],
)
def test_what_a_plain_shell_has_not(text: str, printed: str) -> None:
    assert ran(text)[0] == printed


def ran_refusing(text: str) -> None:
    """Runs a script within a loop, where what isn't served ends it."""
    ran(f"while true; do {text}; break; done")


@pytest.mark.parametrize(
    "text",
    [
        *("a & b", "a > b", "a >> /x", "a < b", "a 2>&3", "a << x", "(a)", "a() { b; }", "case a in a) b;; esac", "function a { b; }", "select a in b; do c; done"),
        *("a 'b", 'a "b', "a `b", "a $(b", "a $((1", "a $1", "a $@", "a ${b#c}", "a ${b:-c}", "a $$", "a $!", "a {b,c}", "a {1..3}", "A=1 b"),
        *("while a; do b", "while a; b; done", "if a; then b", "if a; fi", "for a; do b; done", "for a in b; c; done", "{ a", "do a", "a | | b", "a && && b", "! ", "[[ a"),
        *("a $(b > c)", "a $(b $(c &))", "[[ (a) ]]", "[[ a < b ]]"),
    ],
)
def test_what_the_shell_refuses_before_anything_runs(text: str) -> None:
    with pytest.raises(NotServed, match=":"):
        parse(f"echo begins; {text}")


@pytest.mark.parametrize(
    "text",
    [
        *("unserved", "echo $A", "[ -f x ]", "[ a -nt b ]", "grep a file", "cat file", "grep -P a", "grep -r a", "grep '[a'", "head -q", "wc -L"),
        *("sed 'y/a/b/'", "sed -i s/a/b/", "sed 's/a/b/w x'", "sed -n '1e'", "sed s/a", "sort -k2", "sort -t: x", "echo $((a ** 2))", "echo $((1/0))", "tail -f", "[[ a =~ b ]]", "[[ a b = c d ]]"),
    ],
)
def test_what_is_refused_where_it_is_met(text: str) -> None:
    """The line goes on; but a loop, which may never end for it, doesn't."""
    printed, said, status = ran(f"{text} || echo goes on")
    assert printed == "goes on\n" and said.startswith("amctl: ") and ":" in said and status == 0
    with pytest.raises(NotServed):
        ran_refusing(text)


@pytest.mark.parametrize("text, said", [("[ a -eq 1 ]", "sh: [: a: unexpected"), ("[ a", "missing ]"), ("grep", "no REGEX"), ("tr a", "needs two sets"), ("tr -d a b", "needs two sets"), ("cut -d:", "Select only one"), ("sleep x", "number of seconds"), ("head -n x", "bad number")])
def test_faults_that_are_a_shell_s_own(text: str, said: str) -> None:
    printed, error, status = ran(text)
    assert printed == "" and said in error and status != 0


def test_a_script_without_commands_has_no_steps() -> None:
    assert not parse(" # nothing\n ; ").steps
