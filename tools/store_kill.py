#!/usr/bin/env python3
"""Kills `am session --store FILE` with signal 9 in the middle of installations, removals, grants and links.

    store_kill.py PROGRAM [TIMES]

PROGRAM is the built am. After each kill a new session over the same file has to be in the state after the requests that were
answered, or after one more, which was under way: every acknowledged change is found that no later one undid, and nothing that
was never asked. Uids are never given again. It prints how many requests were acknowledged, and how often the one more was found.
"""
import io
import json
import os
import random
import subprocess
import sys
import tempfile
import threading
import time

import frames

NAMES = [f"com.p{number}" for number in range(6)]
PERMISSIONS = [f"p.{number}" for number in range(3)]
HOSTS = [f"h{number}.org" for number in range(3)]
WEB = {"action": ["android.intent.action.VIEW"], "category": ["android.intent.category.DEFAULT"], "data": [{"scheme": "https"}]}


def toml(value):
    """The value as inline TOML."""
    if isinstance(value, dict):
        return "{ " + ", ".join(f"{key} = {toml(it)}" for key, it in value.items()) + " }"
    return "[" + ", ".join(map(toml, value)) + "]" if isinstance(value, list) else json.dumps(value)


def manifest(name, services=()):
    return {"package": name, "activity": [{"name": ".Web", "exported": True, "intent-filter": [WEB]}], "service": list(services)}


def device():
    guarded = [{"name": f".S{number}", "exported": True, "permission": it} for number, it in enumerate(PERMISSIONS)]
    lines = ['system_key = "sys"']
    for key, it in (("kb", manifest("com.base", guarded)), ("ko", manifest("com.other"))):
        lines += ["[[package]]", f'key = "{key}"', f"manifest = {toml(it)}"]
    return "\n".join(lines) + "\n"


def frame(key, path, body=None):
    return frames.frame(key, path, None if body is None else json.dumps(body, separators=(",", ":")))


def responses(output):
    """The whole responses: status and body."""
    reader, found = frames.Reader(io.BytesIO(output).read), []
    while True:
        try:
            response = reader.response()
        except frames.BadFrame:
            # the end, perhaps inside a response
            return found
        found.append((response.status, json.loads(response.body)))


class Model:
    """What is installed, given and approved."""

    def __init__(self, packages=(), rights=()):
        self.packages, self.rights = set(packages), set(rights)

    def after(self, request):
        """The status of a request, and the state that it leaves."""
        kind, name, text, held = request
        left = Model(self.packages, self.rights)
        if kind == "install":
            if name in self.packages:
                return 409, left
            left.packages.add(name)
        elif name not in self.packages:
            return 404, left
        elif kind == "uninstall":
            left.packages.discard(name)
            left.rights = {it for it in self.rights if it[1] != name}
        else:
            (left.rights.add if held else left.rights.discard)((kind, name, text))
        return 200, left

    def seen(self):
        return self.packages, self.rights


def drawn():
    kind = random.choice(["install", "install", "uninstall", "grant", "grant", "link", "link"])
    text = random.choice(PERMISSIONS if kind == "grant" else HOSTS)
    return kind, random.choice(NAMES), text, random.random() < 0.7


def asked(request):
    kind, name, text, held = request
    if kind == "install":
        it = manifest(name)
        body = {"key": "key-" + name, "manifest": "\n".join(f"{key} = {toml(value)}" for key, value in it.items())}
    elif kind == "uninstall":
        body = {"package": name}
    elif kind == "grant":
        body = {"package": name, "permission": text, "held": held}
    else:
        body = {"package": name, "host": text, "approved": held}
    return frame("sys", "/v1/" + kind, body)


def session(program, folder, asked):
    run = subprocess.run([program, *words(folder)], input=b"".join(asked), capture_output=True)
    if run.returncode:
        sys.exit(f"store_kill: status {run.returncode}: {run.stderr.decode()}")
    return responses(run.stdout)


def words(folder):
    return ["session", "--device", f"{folder}/device.toml", "--store", f"{folder}/rows"]


def found_in(program, folder):
    """What a new session finds, told by its answers alone."""
    answers = session(program, folder, [frame("key-" + name, "/v1/inbox") for name in NAMES])
    packages = {name for name, (status, _) in zip(NAMES, answers) if status == 200}
    asks = [("grant", name, it) for name in sorted(packages) for it in PERMISSIONS]
    starts = [frame("key-" + name, "/v1/start_service", {"intent": {"component": f"com.base/.S{PERMISSIONS.index(it)}"}})
              for _, name, it in asks]
    rights = {it for it, (status, _) in zip(asks, session(program, folder, starts)) if status == 200}
    for host in HOSTS:
        intent = {"action": "android.intent.action.VIEW", "data": f"https://{host}/", "flags": ["NEW_TASK"]}
        (status, body), (_, tasks) = session(program, folder, [frame("sys", "/v1/start", {"intent": intent}), frame("sys", "/v1/tasks")])
        shown = body["choose"] if status == 300 else [tasks["tasks"][0]["instances"][-1]["component"]]
        owners = {it.split("/")[0] for it in shown}
        if "com.base" not in owners:
            rights |= {("link", name, host) for name in owners}
    return packages, rights


def one_kill(program, folder, requests):
    """The answers that were written whole before the kill."""
    child = subprocess.Popen([program, *words(folder)], stdin=subprocess.PIPE, stdout=subprocess.PIPE)
    parts = []
    reader = threading.Thread(target=lambda: parts.append(child.stdout.read()))
    reader.start()
    timer = threading.Timer(random.uniform(0.01, 0.4), child.kill)
    timer.start()
    try:
        for request in requests:
            child.stdin.write(asked(request))
            child.stdin.flush()
    except BrokenPipeError:
        pass
    time.sleep(0.5)
    child.kill()
    reader.join()
    child.wait()
    return responses(parts[0])


def public_files(folder):
    """The store's files that others than their owner may read or write."""
    return [name for name in os.listdir(folder) if name.startswith("rows") and os.stat(f"{folder}/{name}").st_mode & 0o077]


def main():
    program, times = sys.argv[1], int(sys.argv[2]) if len(sys.argv) > 2 else 200
    model, greatest, acknowledged, one_more = Model(), 10001, 0, 0
    with tempfile.TemporaryDirectory() as folder:
        with open(f"{folder}/device.toml", "w", encoding="utf-8") as file:
            file.write(device())
        for turn in range(times):
            requests = [drawn() for _ in range(400)]
            answers = one_kill(program, folder, requests)
            if public := public_files(folder):
                sys.exit(f"turn {turn}: not private: {public}")
            for request, (status, body) in zip(requests, answers):
                wanted, model = model.after(request)
                if status != wanted:
                    sys.exit(f"turn {turn}: {request} was answered {status} {body}, not {wanted}")
                if "uid" in body:
                    if body["uid"] <= greatest:
                        sys.exit(f"turn {turn}: uid {body['uid']} was given before")
                    greatest = body["uid"]
            acknowledged += len(answers)
            found = found_in(program, folder)
            if found != model.seen():
                model = model.after(requests[len(answers)])[1] if len(answers) < len(requests) else model
                one_more += 1
            if found != model.seen():
                sys.exit(f"turn {turn}: found {found}, and not {model.seen()}")
    print(f"{times} kills, {acknowledged} requests acknowledged and found, {one_more} times the one under way too")


main()
