#!/usr/bin/env python3
"""Refuses `am session` its memory, one call after the other.

    refuse_memory.py [PROGRAM]

PROGRAM is the built am; without it the one under crates/am/out is taken. It needs a C compiler, `cc`, for a small library that is
loaded before the C library and refuses the call of that number, of malloc, calloc, realloc, posix_memalign and aligned_alloc
together. A session of requests of every kind is run with the first call refused, then with the second, until it makes no further
one. Each run has to end with status 8 and its line before anything is answered, or with status 0. In the latter each response is
the one of a run that is refused nothing, but for a 507. A 507 without a place says that the call wasn't made, and then all others
are those of a session without that frame; one with a place says that it was made, at the place where it is made otherwise.
It prints how many runs ended in which way.
"""
import concurrent.futures
import os
import subprocess
import sys
import tempfile

from server import HEAD, built, frame, text_of

LIBRARY = r"""
#define _GNU_SOURCE
#include <errno.h>
#include <fcntl.h>
#include <stddef.h>
#include <stdlib.h>
#include <unistd.h>

extern void *__libc_malloc(size_t);
extern void *__libc_calloc(size_t, size_t);
extern void *__libc_realloc(void *, size_t);
extern void *__libc_memalign(size_t, size_t);

static unsigned long wanted, calls;
static const char *told;
static int is_counting;

__attribute__((constructor)) static void begin(void) {
    const char *number = getenv("REFUSE_CALL");
    wanted = number ? strtoul(number, NULL, 10) : 0;
    told = getenv("REFUSE_TOLD");
    is_counting = 1;
}

static int is_refused(void) {
    if (!is_counting || __atomic_add_fetch(&calls, 1, __ATOMIC_SEQ_CST) != wanted) return 0;
    int file = told ? open(told, O_WRONLY | O_CREAT, 0600) : -1;
    if (file >= 0) close(file);
    errno = ENOMEM;
    return 1;
}

void *malloc(size_t size) { return is_refused() ? NULL : __libc_malloc(size); }
void *calloc(size_t count, size_t size) { return is_refused() ? NULL : __libc_calloc(count, size); }
void *realloc(void *block, size_t size) { return is_refused() ? NULL : __libc_realloc(block, size); }
void *aligned_alloc(size_t align, size_t size) { return is_refused() ? NULL : __libc_memalign(align, size); }
int posix_memalign(void **block, size_t align, size_t size) {
    void *made = is_refused() ? NULL : __libc_memalign(align, size);
    if (!made) return ENOMEM;
    *block = made;
    return 0;
}
"""

DEVICE = """system_key = "sys"
exempt = ["x.O"]
[[package]]
key = "k1"
[package.manifest]
package = "com.one"
activity = [{ name = ".A", exported = true, intent-filter = [{ action = ["x.A"], category = ["android.intent.category.DEFAULT"] }] }]
service = [{ name = ".S", exported = true, intent-filter = [{ action = ["x.S"] }] }]
receiver = [{ name = ".R", exported = true, intent-filter = [{ action = ["x.O"], priority = 1 }] }]
[[package]]
key = "k2"
[package.manifest]
package = "com.two"
receiver = [{ name = ".R", exported = true, intent-filter = [{ action = ["x.O"] }] }]
"""

START = {"action": "x.A", "flags": ["NEW_TASK"]}
SENT = {"action": "x.O", "extras": {"a": 1, "b": "two"}}
ASKED = [
    ("k1", "/v1/query", {"intent": {"action": "x.A"}, "kind": "activity"}),
    ("k1", "/v1/start", {"intent": START}),
    ("k1", "/v1/start", {"intent": {"action": "x.A"}, "source": 1}),
    ("sys", "/v1/tasks", None),
    ("k1", "/v1/finish_activity", {"instance": 2}),
    ("sys", "/v1/back", {}),
    ("k2", "/v1/start_service", {"intent": {"action": "x.S", "package": "com.one"}}),
    ("k1", "/v1/services", None),
    ("k1", "/v1/stop_service", {"component": "com.one/com.one.S"}),
    ("k2", "/v1/register", {"filter": {"actions": ["x.O", "x.E"], "data": [{"host": "a.com", "scheme": "http"}]}}),
    ("k1", "/v1/send", {"intent": SENT}),
    ("k1", "/v1/inbox", None),
    ("k1", "/v1/finish", {"delivery": 1}),
    ("k1", "/v1/send", {"code": 1, "data": "first", "extras": {"c": True}, "intent": SENT, "ordered": True, "result": True}),
    ("k1", "/v1/inbox", None),
    ("k1", "/v1/finish", {"code": 2, "data": "second", "delivery": 3, "extras": {"d": "e"}}),
    ("k2", "/v1/inbox", None),
    ("k2", "/v1/finish", {"abort": True, "delivery": 4}),
    ("k2", "/v1/unregister", {"number": 1}),
    ("k1", "/v1/pending/get", {"code": 0, "flags": ["MUTABLE"], "intent": {"action": "x.O"}, "kind": "broadcast"}),
    ("k1", "/v1/pending/give", {"package": "com.two", "token": 1}),
    ("k2", "/v1/pending/send", {"fill": {"extras": {"f": 6}}, "token": 1}),
    ("k1", "/v1/pending/cancel", {"token": 1}),
    ("sys", "/v1/install", {"key": "k3", "manifest": 'package = "com.three"\nactivity = [{ name = ".A", exported = true }]'}),
    ("sys", "/v1/grant", {"held": True, "package": "com.three", "permission": "p.P"}),
    ("sys", "/v1/link", {"approved": True, "host": "a.com", "package": "com.three"}),
    ("sys", "/v1/force_stop", {"package": "com.one"}),
    ("sys", "/v1/uninstall", {"package": "com.three"}),
    ("sys", "/v1/tick", {}),
    ("sys", "/v1/history", {"from": 0}),
    ("sys", "/v1/status", None),
    ("none", "/v1/status", None),
    ("sys", "/v1/none", None),
    ("sys", "/v1/tick", {"more": 1}),
    ("sys", "/v1/history", {"from": 20}),
]
FRAMES = [frame(key, path, None if body is None else text_of(body)) for key, path, body in ASKED]


def responses(output):
    """The responses, each as its head with the place and its bytes."""
    at, found = 0, []
    while head := HEAD.match(output, at):
        end = head.end() + int(head[2])
        found.append((head, output[at:end]))
        at = end
    return found if at == len(output) else None


class Session:
    """Sessions of the program over one device."""

    def __init__(self, program, folder):
        self.folder, self.library = folder, f"{folder}/refuse.so"
        with open(f"{folder}/refuse.c", "w", encoding="utf-8") as file:
            file.write(LIBRARY)
        with open(f"{folder}/device.toml", "w", encoding="utf-8") as file:
            file.write(DEVICE)
        subprocess.run(["cc", "-O2", "-shared", "-fPIC", "-o", self.library, f"{folder}/refuse.c"], check=True)
        self.words = [program, "session", "--device", f"{folder}/device.toml", "--at", "5", "--step", "0"]
        self.without = {}

    def run(self, frames, call=0):
        """How it ended, and whether it made the call, which was refused."""
        told = f"{self.folder}/told{call}"
        refusing = {**os.environ, "LD_PRELOAD": self.library, "REFUSE_CALL": str(call), "REFUSE_TOLD": told}
        ended = subprocess.run(self.words, input=b"".join(frames), capture_output=True, env=refusing, timeout=60)
        was_refused = os.path.exists(told)
        if was_refused:
            os.remove(told)
        return ended, was_refused

    def whole(self, frames):
        """The responses of a session that is refused nothing."""
        ended, _ = self.run(frames)
        found = responses(ended.stdout)
        if ended.returncode or ended.stderr or len(found) != len(frames):
            sys.exit(f"refuse_memory: a session that is refused nothing ended with {ended.returncode}, {ended.stderr!r} and {ended.stdout!r}")
        return found

    def others(self, left_out):
        """The responses of a session without that frame."""
        if left_out not in self.without:
            self.without[left_out] = [it[1] for it in self.whole(FRAMES[:left_out] + FRAMES[left_out + 1:])]
        return self.without[left_out]

    def way(self, call, right):
        """In which way the session ends that is refused that call; `None` if it makes no such call, and a text for a wrong one."""
        ended, was_refused = self.run(FRAMES, call)
        if not was_refused:
            return None
        if ended.returncode == 8:
            is_right = (ended.stdout, ended.stderr) == (b"", b"am: out of memory\n")
            return "status 8" if is_right else f"status 8 with {ended.stdout[:200]!r} and {ended.stderr!r}"
        found = responses(ended.stdout)
        if ended.returncode or ended.stderr or found is None or len(found) != len(FRAMES):
            return f"status {ended.returncode}, {ended.stderr!r} and {ended.stdout[-300:]!r}"
        return self.way_of(found, right)

    def way_of(self, found, right):
        wanting = [at for at, (head, _) in enumerate(found) if head[1] == b"507 Insufficient Storage"]
        if not wanting:
            return "as if nothing was refused" if [it[1] for it in found] == [it[1] for it in right] else "another response, and no 507"
        at, others = wanting[0], [it[1] for it in found]
        head, response = found[at]
        del others[at]
        if len(wanting) > 1 or not response.endswith(b'\r\n\r\n{"error":"no_memory"}'):
            return f"several 507, or another body: {response!r}"
        if head[3] is None:
            return "507 without a place" if others == self.others(at) else f"behind the 507 to frame {at} others are not as if it weren't asked"
        as_made = (head[3], head[4]) == (right[at][0][3], right[at][0][4]) and others == [it[1] for it in right[:at] + right[at + 1:]]
        return "507 with the place" if as_made else f"around the 507 with a place to frame {at} others are not as if it was answered"


WAYS = ("status 8", "as if nothing was refused", "507 without a place", "507 with the place")


def main(program):
    counts, wrong = dict.fromkeys(WAYS, 0), 0
    with tempfile.TemporaryDirectory() as folder, concurrent.futures.ThreadPoolExecutor(os.cpu_count()) as pool:
        session = Session(program, folder)
        right = session.whole(FRAMES)
        begin, is_over = 1, False
        while not is_over:
            calls = range(begin, begin + 256)
            for call, way in zip(calls, pool.map(lambda call: session.way(call, right), calls)):
                if way is None:
                    is_over = True
                elif way in counts:
                    counts[way] += 1
                else:
                    wrong += 1
                    print(f"call {call} refused: {way}")
            begin += 256
    print(f"{len(FRAMES)} frames, {sum(counts.values()) + wrong} calls refused: " + ", ".join(f"{way} {count}" for way, count in counts.items()) + f", wrong {wrong}")
    return 1 if wrong else 0


if __name__ == "__main__":
    if len(sys.argv) > 2:
        sys.exit(__doc__)
    sys.exit(main(sys.argv[1] if len(sys.argv) == 2 else built()))
