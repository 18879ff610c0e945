#!/usr/bin/env python3
"""Asks `am session` to explain random requests, and then makes each of them: both have to agree.

    explained.py PROGRAM [--requests N] [--seed N]

PROGRAM is the built am. Over one random device after the other it asks for what an intent of a caller would reach, and then makes the
request itself: a start with NEW_TASK and without a source, a start of a service, or a normal broadcast. What is `reached` has to be
what the request reaches, what is `tied` the choice that it is answered, in its order, and the verdict of a receiver that isn't reached
the one that the broadcast has for it. The same is also asked by the system or the root for the caller, which has to say the same, by
an app for itself, which is refused, and for one package alone, which has to be that package's part. N requests are made, 500 if not
said. It prints how often each verdict came, and says of the first disagreement what it is.
"""
import argparse
import collections
import json
import random
import re
import subprocess
import sys
import tempfile

from frames import frame

HEAD = re.compile(
    rb"HTTP/1\.1 (\d{3}) [A-Z][A-Za-z ]*\r\nContent-Type: application/json\r\nContent-Length: (\d+)\r\n"
    rb"(?:AM-At: \d+\r\nAM-Stored: ([01])\r\n)?\r\n"
)
VIEW = "android.intent.action.VIEW"
DEFAULT = "android.intent.category.DEFAULT"
BROWSABLE = "android.intent.category.BROWSABLE"
ACTIONS = ["x.A", "x.B", "x.PROTECTED", "x.EXEMPT", VIEW]
PERMISSIONS = ["p.One", "p.Two"]
HOSTS = ["a.com", "b.org"]
TYPES = ["text/plain", "image/png"]
URIS = ["https://a.com/", "https://a.com/deep/page", "https://b.org/deep", "http://A.com/deep", "content://a.com/deep", "mailto:who"]
PATHS = {"activity": "/v1/start", "service": "/v1/start_service", "receiver": "/v1/send"}
NOT_OFFERED = {"other_component", "other_package", "disabled", "filters"}
GATE = {"not_exported", "needs_permission"}
A_DEVICE = 20


def text_of(value):
    return json.dumps(value, sort_keys=True, separators=(",", ":"))


def toml(value):
    """A value in one line of TOML."""
    if isinstance(value, dict):
        return "{ " + ", ".join(f"{key} = {toml(it)}" for key, it in value.items()) + " }"
    if isinstance(value, list):
        return "[" + ", ".join(map(toml, value)) + "]"
    return json.dumps(value)


class Device:
    """A random device, the calls of a session on it, and what has to hold of their answers."""

    def __init__(self, dice, requests):
        self.dice = dice
        self.names = [f"com.p{number}" for number in range(dice.randint(2, 6))]
        self.keys = {"android": "sys", "root": "rot", **{name: f"k{number}" for number, name in enumerate(self.names)}}
        self.classes = {kind: [] for kind in PATHS}
        self.owners = []
        self.registered = {}
        self.calls = []
        self.checks = []
        self.file = self.described()
        for _ in range(dice.randint(0, 8)):
            self.change()
        for _ in range(requests):
            self.request()

    def some(self, values, most):
        return self.dice.sample(values, self.dice.randint(0, min(most, len(values))))

    def perhaps(self, chance):
        return self.dice.random() < chance

    def filter(self, kind):
        """A filter as a manifest has it."""
        web = kind == "activity" and self.perhaps(0.4)
        made = {"action": [VIEW] if web else self.dice.sample(ACTIONS, self.dice.randint(1, 2))}
        if self.perhaps(0.05):
            del made["action"]
        made["category"] = [DEFAULT] * self.perhaps(0.9) + [BROWSABLE] * self.perhaps(0.5)
        rows = []
        if web or self.perhaps(0.2):
            row = {"scheme": "https" if web else self.dice.choice(["https", "content"])}
            if self.perhaps(0.5):
                row["host"] = self.dice.choice(HOSTS)
                if self.perhaps(0.3):
                    row["pathPrefix"] = "/deep"
            rows.append(row)
        if self.perhaps(0.15):
            rows.append({"mimeType": self.dice.choice(["text/plain", "image/*"])})
        if rows:
            made["data"] = rows
        if self.perhaps(0.4):
            made["priority"] = self.dice.randint(-2, 2)
        return made

    def component(self, kind, package, number):
        short = f".{kind[0].upper()}{number}"
        self.classes[kind].append(f"{package}/{package}{short}")
        made = {"name": short, "exported": self.perhaps(0.75)}
        if self.perhaps(0.15):
            made["enabled"] = False
        if self.perhaps(0.2):
            made["permission"] = self.dice.choice(PERMISSIONS)
        made["intent-filter"] = [self.filter(kind) for _ in range(self.dice.randint(0, 3))]
        return made

    def described(self):
        lines = ['system_key = "sys"', 'root_key = "rot"', 'protected = ["x.PROTECTED"]', 'exempt = ["x.EXEMPT", "x.PROTECTED"]']
        if self.perhaps(0.3):
            lines.append(f"browser = {toml(self.dice.choice([*self.names, 'com.none']))}")
        for name in self.names:
            manifest = {"package": name}
            for kind in PATHS:
                manifest[kind] = [self.component(kind, name, number) for number in range(self.dice.randint(0, 3))]
            lines += ["[[package]]", f"key = {toml(self.keys[name])}", f"manifest = {toml(manifest)}"]
        return "\n".join(lines) + "\n"

    def ask(self, key, path, body):
        """Appends a call, and tells the place of its answer."""
        self.calls.append((key, path, body))
        return len(self.calls) - 1

    def expect(self, what, *arguments):
        self.checks.append((what, arguments))

    def done(self, at):
        self.expect(is_done, at)

    def change(self):
        """A change of what is granted, approved, stopped or registered."""
        name = self.dice.choice(self.names)
        kind = self.dice.randrange(4)
        if kind == 0:
            body = {"held": self.perhaps(0.7), "package": name, "permission": self.dice.choice(PERMISSIONS)}
            self.done(self.ask("sys", "/v1/grant", body))
        elif kind == 1:
            body = {"approved": self.perhaps(0.6), "host": self.dice.choice(HOSTS), "package": name}
            self.done(self.ask("sys", "/v1/link", body))
        elif kind == 2 and self.perhaps(0.5):
            self.done(self.ask("sys", "/v1/force_stop", {"package": name}))
            self.registered = {number: owner for number, owner in self.registered.items() if owner != name}
        else:
            self.register(self.dice.choice([name, name, "android"]))

    def register(self, name):
        written = self.filter("receiver")
        made = {"actions": written.get("action", ["x.A"]), "categories": written["category"]}
        if "data" in written:
            made["data"] = written["data"]
        if "priority" in written:
            made["priority"] = written["priority"]
        body = {"filter": made}
        if self.perhaps(0.2):
            body["permission"] = self.dice.choice(PERMISSIONS)
        self.owners.append(name)
        self.registered[len(self.owners)] = name
        self.expect(is_registered, self.ask(self.keys[name], "/v1/register", body), len(self.owners))

    def intent(self, kind):
        made = {}
        if kind == "activity" and self.perhaps(0.35):
            made = {"action": VIEW, "data": self.dice.choice(URIS)}
            if self.perhaps(0.3):
                made["categories"] = [BROWSABLE]
        else:
            if self.perhaps(0.95):
                made["action"] = self.dice.choice(ACTIONS)
            if self.perhaps(0.2):
                made["data"] = self.dice.choice(URIS)
            if self.perhaps(0.15):
                made["type"] = self.dice.choice(TYPES)
            if self.perhaps(0.15):
                made["categories"] = self.some([DEFAULT, BROWSABLE, "x.C"], 2)
        if self.perhaps(0.55 if kind == "service" else 0.15):
            made["package"] = self.dice.choice([*self.names, "android"] if self.perhaps(0.9) else ["com.none"])
        if self.classes[kind] and self.perhaps(0.2):
            made["component"] = self.dice.choice(self.classes[kind])
        if kind == "receiver":
            flags = ["REGISTERED_ONLY"] * self.perhaps(0.1) + ["INCLUDE_STOPPED"] * self.perhaps(0.2)
            if flags:
                made["flags"] = flags
        return made

    def request(self):
        """A request of a caller, explained in several ways, and then made."""
        if self.perhaps(0.2):
            self.change()
        kind = self.dice.choice(list(PATHS))
        caller = self.dice.choice([*self.names, *self.names, "android", "root"])
        key = self.keys[caller]
        body = {"intent": self.intent(kind)}
        if kind == "receiver" and self.perhaps(0.2):
            body["permission"] = self.dice.choice(PERMISSIONS)
        question = {"kind": kind, **body}
        told = self.ask(key, "/v1/explain", question)
        if caller != "root":
            admin = self.dice.choice(["sys", "rot"])
            self.expect(is_same, told, self.ask(admin, "/v1/explain", {"as": caller, **question}))
        if caller in self.names:
            self.expect(is_refused, self.ask(key, "/v1/explain", {"as": caller, **question}), 403, "admin_only")
        shown = self.dice.choice(self.names)
        numbers = {number for number, owner in self.registered.items() if owner == shown}
        self.expect(is_part, told, self.ask(key, "/v1/explain", {"of": shown, **question}), shown, numbers)
        if kind == "activity":
            body = {"intent": {**body["intent"], "flags": ["NEW_TASK"]}}
        made = self.ask(key, PATHS[kind], body)
        if kind == "activity":
            self.expect(agrees_with_start, told, made, self.ask("sys", "/v1/tasks", None))
        else:
            self.expect(agrees_with_service if kind == "service" else agrees_with_broadcast, told, made)
        self.expect(count, told, kind)


COUNTS = collections.Counter()


def need(holds, *what):
    if not holds:
        raise AssertionError(" | ".join(map(str, what)))


def accounts_of(answer):
    status, stored, body = answer
    need((status, stored) == (200, 0) and list(body) == ["accounts"], "not explained", answer)
    return body["accounts"]


def those(accounts, verdicts):
    return [it["to"] for it in accounts if it["verdict"] in verdicts]


def is_done(answers, at):
    need(answers[at][0] == 200 and answers[at][2] == {}, "not done", answers[at])


def is_registered(answers, at, number):
    need(answers[at][2] == {"number": number}, "not registered", answers[at])


def is_same(answers, one, other):
    need(accounts_of(answers[one]) == accounts_of(answers[other]), "differs where another asks", answers[one], answers[other])


def is_refused(answers, at, status, rule):
    need((answers[at][0], answers[at][2]) == (status, {"error": rule}), "not refused", answers[at])


def is_part(answers, whole, part, package, numbers):
    wanted = [
        it for it in accounts_of(answers[whole])
        if it["to"] in numbers or isinstance(it["to"], str) and it["to"].startswith(f"{package}/")
    ]
    need(accounts_of(answers[part]) == wanted, "not the part of the package", package, answers[whole], answers[part])


def is_gated(accounts, error):
    """The one that the start is for has the verdict that the start is refused by."""
    gated = [{key: it[key] for key in it if key != "to"} for it in accounts if it["verdict"] in GATE]
    wanted = {"verdict": error["error"], **{key: it for key, it in error.items() if key == "name"}}
    need(gated == [wanted], "refused by another rule", gated, error)


def agrees_with_start(answers, told, made, tasks):
    accounts = accounts_of(answers[told])
    status, _, reply = answers[made]
    reached, tied = those(accounts, {"reached"}), those(accounts, {"tied"})
    if status == 200:
        [task] = [it["instances"] for it in answers[tasks][2]["tasks"] if it["task"] == reply["task"]]
        # A task that only comes to the front does so for its root, whatever is on top of it.
        placed = [it["component"] for it in task if it["instance"] == reply["instance"]]
        placed = [task[0]["component"]] if reply["placed"] == "fronted" else placed
        need((reached, tied) == (placed, []) and not those(accounts, GATE), "another activity was started", accounts, placed)
    elif status == 300:
        need((reached, tied) == ([], reply["choose"]) and not those(accounts, GATE), "another choice was given", accounts, reply)
    else:
        need((reached, tied) == ([], []), "no activity was started", accounts, reply)
        refuses(accounts, reply, {"no_activity", "no_component"})


def refuses(accounts, reply, absent):
    """Nothing was started: nothing is there, or the gate refuses."""
    if reply["error"] in GATE:
        is_gated(accounts, reply)
    else:
        need(reply["error"] in absent and not those(accounts, GATE), "refused by another rule", accounts, reply)


def agrees_with_service(answers, told, made):
    accounts = accounts_of(answers[told])
    status, _, reply = answers[made]
    reached = those(accounts, {"reached"})
    need(not those(accounts, {"tied"}), "services tie", accounts)
    if status == 200:
        need(reached == [reply["component"]] and not those(accounts, GATE), "another service was started", accounts, reply)
    else:
        need(reached == [], "no service was started", accounts, reply)
        refuses(accounts, reply, {"no_service", "no_component", "implicit_service"})
        need(reply["error"] == "implicit_service" or not those(accounts, {"implicit_service"}), "not implicit", accounts, reply)


def agrees_with_broadcast(answers, told, made):
    accounts = accounts_of(answers[told])
    status, _, reply = answers[made]
    need(not those(accounts, {"tied"}), "receivers tie", accounts)
    if status == 200:
        offered = {it["to"]: {**it, "verdict": it["verdict"].replace("admitted", "reached")} for it in reply["receivers"]}
        wanted = {it["to"]: it for it in accounts if it["verdict"] not in NOT_OFFERED}
        need(wanted == offered and len(wanted) == len(reply["receivers"]), "receivers differ", accounts, reply)
    else:
        need(reply == {"error": "protected_action"} and not those(accounts, {"reached"}), "nothing was sent", accounts, reply)


def count(answers, told, kind):
    for it in accounts_of(answers[told]):
        COUNTS[it["verdict"]] += 1
        for reason in it.get("reasons", []):
            COUNTS[f"filters {reason}"] += 1
        if "by" in it:
            COUNTS[f"narrowed {it['by']}"] += 1
    COUNTS[f"explained {kind}"] += 1


def answers_of(output):
    """The status, whether it was stored, and the body of each response."""
    while output:
        head = HEAD.match(output)
        need(head, "a response begins", output[:300])
        end = head.end() + int(head[2])
        yield int(head[1]), int(head[3] or 0), json.loads(output[head.end():end])
        output = output[end:]


def main(program, requests, seed):
    made = 0
    while made < requests:
        device = Device(random.Random(f"{seed} {made}"), min(A_DEVICE, requests - made))
        with tempfile.NamedTemporaryFile("w", suffix=".toml") as file:
            file.write(device.file)
            file.flush()
            words = [program, "session", "--device", file.name, "--at", "0", "--step", "1"]
            run = subprocess.run(words, input=b"".join(frame(key, path, None if body is None else text_of(body)) for key, path, body in device.calls), capture_output=True)
        answers = list(answers_of(run.stdout))
        if run.returncode or len(answers) != len(device.calls):
            sys.exit(f"explained: status {run.returncode}, {len(answers)} of {len(device.calls)} answers\n{run.stderr.decode()}{device.file}")
        for check, arguments in device.checks:
            try:
                check(answers, *arguments)
            except AssertionError as wrong:
                asked = [device.calls[it] for it in arguments[:2] if isinstance(it, int) and it < len(device.calls)]
                sys.exit(f"explained: {wrong}\nasked {asked}\n{device.file}")
        made += min(A_DEVICE, requests - made)
    print(f"{made} requests agree; " + ", ".join(f"{name} {COUNTS[name]}" for name in sorted(COUNTS)))


if __name__ == "__main__":
    words = argparse.ArgumentParser(usage=__doc__)
    words.add_argument("program")
    words.add_argument("--requests", type=int, default=500)
    words.add_argument("--seed", type=int, default=1)
    given = words.parse_args()
    main(given.program, given.requests, given.seed)
