"""A simulated device that answers as a phone does: by `am`, by the client's own words of adb where they serve, and else in the lines that
a phone is said to print."""
import contextlib
import io
import shlex
import shutil
import socket
import subprocess
import time
from collections.abc import Callable, Mapping, Sequence
from dataclasses import dataclass, field
from pathlib import Path
from unittest import mock

from amctl import adb as words
from amctl.adb import flags
from amctl.adb.intents import AskedIntent, read_intent
from amctl.adb.options import Words
from amctl.device import Device, Refusal
from amctl.devicefile import Component, DeviceFile, Package
from amctl.errors import NoServer
from amctl.find import find_am
from amctl.phone.adb import Said
from amctl.results import Sent

SHELL = "com.android.shell"
SHELL_UID = 2000
FIRST_UID = 10000
READY_SECONDS = 30
DEADLINE = 60_000
OK = Said(0, "", "")


@dataclass(frozen=True)
class Settings:
    """What a phone has beside what its apps declare: what the user switched on and off, whom a shell may be, what is stopped."""

    disabled: tuple[str, ...] = ()
    off: tuple[str, ...] = ()
    on: tuple[str, ...] = ()
    stopped: tuple[str, ...] = ()
    debuggable: tuple[str, ...] = ()
    level: str = "31"
    # hosts whose approval comes from the user, and packages whose links the user switched off
    chosen: tuple[str, ...] = ()
    unlinked: tuple[str, ...] = ()


@dataclass
class StandIn:
    """The phone. It is one server of `am`, so that what a line starts is there for the next one."""

    device: Path
    apks: Mapping[str, Sequence[Path]] = field(default_factory=dict)
    settings: Settings = Settings()
    serial: str = "standin-1"
    asked: list[tuple[str, ...]] = field(default_factory=list)
    sent: list[tuple[AskedIntent, int, Sent]] = field(default_factory=list)
    started: list[str] = field(default_factory=list)

    def __post_init__(self) -> None:
        with socket.socket() as listener:
            listener.bind(("127.0.0.1", 0))
            port = int(listener.getsockname()[1])
        self.url = f"http://127.0.0.1:{port}"
        command = [str(find_am()), "serve", "--device", str(self.device), "--port", str(port), "--workers", "2"]
        self.server = subprocess.Popen(command, stdout=subprocess.DEVNULL)
        self.phone = Device.connect(self.url, self.device)
        self._wait()
        if self.phone.file.package(SHELL) is None:
            self.phone.system.install(f'package = "{SHELL}"\n')

    def _wait(self) -> None:
        until = time.monotonic() + READY_SECONDS
        while True:
            try:
                self.phone.system.status()
                return
            except NoServer:
                if time.monotonic() > until:
                    raise
                time.sleep(0.02)

    def close(self) -> None:
        self.phone.close()
        self.server.terminate()
        self.server.wait()

    def __enter__(self) -> "StandIn":
        return self

    def __exit__(self, *_: object) -> None:
        self.close()

    def __call__(self, given: Sequence[str], seconds: float = 0) -> Said:
        """What adb prints for these words."""
        asked = tuple(given)
        self.asked.append(asked)
        if asked[:1] == ("-s",):
            if asked[1] != self.serial:
                return Said(1, "", f"adb: device '{asked[1]}' not found\n")
            asked = asked[2:]
        if asked == ("get-state",):
            return Said(0, "device\n", "")
        if asked == ("get-serialno",):
            return Said(0, f"{self.serial}\n", "")
        if asked[0] == "pull":
            return self._pull(*asked[1:])
        assert asked[0] == "shell", asked
        return self._shell(tuple(shlex.split(" ".join(asked[1:]))))

    def _shell(self, line: tuple[str, ...]) -> Said:
        for length in (3, 2, 1):
            answer = SHELL_WORDS.get(line[:length])
            if answer is not None:
                return answer(self, line)
        return self._by_words(line)

    def _by_words(self, line: Sequence[str]) -> Said:
        """What the client's own words of adb print."""
        out, err = io.StringIO(), io.StringIO()
        # each word would parse the same file again
        parsed = mock.patch.object(DeviceFile, "read", return_value=self.phone.file)
        with parsed, contextlib.redirect_stdout(out), contextlib.redirect_stderr(err):
            status = words.main(["--url", self.url, "--device", str(self.device), "shell", shlex.join(line)])
        # what is said beside adb's lines isn't a phone's
        complaints = [it for it in err.getvalue().splitlines(keepends=True) if not it.startswith("amctl: ")]
        return Said(status, out.getvalue(), "".join(complaints))

    def _remote(self, package: str, apk: Path) -> str:
        name = "base.apk" if apk.stem == package or package == "android" else f"split_{apk.stem.removeprefix(package + '.')}.apk"
        return f"/data/app/~~{len(package)}==/{package}-1==/{name}"

    def _pull(self, remote: str, local: str) -> Said:
        for package, apks in self.apks.items():
            for apk in apks:
                if self._remote(package, apk) == remote:
                    shutil.copyfile(apk, local)
                    return Said(0, f"{remote}: 1 file pulled, 0 skipped.\n", "")
        return Said(1, "", f"adb: error: failed to stat remote object '{remote}': No such file or directory\n")

    def _packages(self) -> tuple[Package, ...]:
        return self.phone.file.packages

    def _list(self, line: tuple[str, ...]) -> Said:
        options = line[3:]
        names = [("android", 1000), *((it.name, FIRST_UID + at) for at, it in enumerate(self._packages()))]
        if "-d" in options:
            names = [it for it in names if it[0] in self.settings.disabled]
        if "-3" in options:
            names = [it for it in names if it[0] not in ("android", SHELL)]
        # a phone lists them in no order that means something
        return Said(0, "".join(f"package:{self._path(name) if '-f' in options else ''}{name}{f' uid:{uid}' if '-U' in options else ''}\n" for name, uid in reversed(names)), "")

    def _path(self, package: str) -> str:
        apks = self.apks.get(package)
        return f"{self._remote(package, apks[0])}=" if apks else ""

    def _pm_path(self, line: tuple[str, ...]) -> Said:
        apks = self.apks.get(line[2], ())
        return Said(0 if apks else 1, "".join(f"package:{self._remote(line[2], it)}\n" for it in apks), "")

    def _dump(self, line: tuple[str, ...]) -> Said:
        package = self.phone.file.package(line[2])
        return Said(0, _dump_of(package, self) if package else f"Unable to find package: {line[2]}\n", "")

    def _links(self, line: tuple[str, ...]) -> Said:
        package = line[-1]
        hosts = [it.host for it in self.phone.file.links if it.package == package]
        lines = [f"  {package}:", "    ID: 3f2504e0-4f89-41d3-9a0c-0305e82c3301", "    Signatures: [AA:BB]", "    Domain verification state:"]
        lines += [f"      {it}: {'none' if it in self.settings.chosen else 'verified'}" for it in hosts] + ["      other.example: legacy_failure", "      odd.example: 1024"]
        lines += ["    User 0:", f"      Verification link handling allowed: {str(package not in self.settings.unlinked).lower()}", "      Selection state:"]
        lines += ["        Enabled:", *(f"          {it}" for it in hosts if it in self.settings.chosen), "        Disabled:", "          no.example"]
        return Said(0, "".join(f"{it}\n" for it in lines), "")

    def _unknown_role(self, line: tuple[str, ...]) -> Said:
        return Said(255, f"Unknown command: {line[2]}\n", "")

    def _role(self, line: tuple[str, ...]) -> Said:
        browser = self.phone.file.browser
        return Said(0, f"{browser}\n" if browser else "", "")

    def _property(self, line: tuple[str, ...]) -> Said:
        known = {"ro.build.version.sdk": self.settings.level, "ro.build.version.release": "12"}
        return Said(0, f"{known.get(line[1], '')}\n", "")

    def _start(self, line: tuple[str, ...]) -> Said:
        return self._start_as(SHELL, SHELL_UID, line)

    def _start_as(self, package: str, uid: int, line: tuple[str, ...]) -> Said:
        said = self._by_words(("run-as", package, *line))
        opened = next((it.removeprefix("Activity: ") for it in said.out.splitlines() if it.startswith("Activity: ")), None)
        if opened:
            self.started.append(f"START u0 {{act=x flg=0x10000000 cmp={opened}}} from uid {uid}")
        return said

    def _run_as(self, line: tuple[str, ...]) -> Said:
        package, rest = line[1], line[2:]
        if package not in self.settings.debuggable:
            return Said(1, "", f"run-as: package not debuggable: {package}\n")
        uid = next(FIRST_UID + at for at, it in enumerate(self._packages()) if it.name == package)
        return self._send_as(package, uid, rest) if rest[:2] == ("am", "broadcast") else self._start_as(package, uid, rest)

    def _send(self, line: tuple[str, ...]) -> Said:
        return self._send_as(SHELL, SHELL_UID, line)

    def _send_as(self, package: str, uid: int, line: tuple[str, ...]) -> Said:
        taken = Words(line[2:], "broadcast")
        intent = read_intent(taken, lambda option: option == "--user" and bool(taken.value())).flagged(flags.FROM_SHELL)
        said = f"Broadcasting: {intent}\n"
        try:
            reply = self.phone.app(package).send(intent.sent("receiver"))
        except Refusal as refused:
            assert refused.rule == "protected_action", refused
            why = f"java.lang.SecurityException: Permission Denial: not allowed to send broadcast {intent.fields.action} from pid=9, uid={uid}"
            return Said(255, said, f"\nException occurred while executing 'broadcast':\n{why}\n\tat com.android.server.am.A.b(A.java:1)\n")
        # a phone waits until all have it
        self.phone.advance(DEADLINE)
        self.sent.append((intent, uid, reply))
        return Said(0, f"{said}Broadcast completed: result=0\n", "")

    def _broadcasts(self, line: tuple[str, ...]) -> Said:
        lines = ["ACTIVITY MANAGER BROADCAST STATE (dumpsys activity broadcasts)", "  Historical broadcasts [background]:"]
        for at, (intent, uid, reply) in enumerate(reversed(self.sent)):
            lines += [f"  Historical Broadcast background #{at}:", f"    BroadcastRecord{{{at:x} u0 {intent.fields.action}}} to user 0", f"    {intent}"]
            lines += [f"    caller=com.android.shell null pid=9 uid={uid}", "    resultAbort=false ordered=true sticky=false initialSticky=false"]
            # a phone's own apps have registered for much
            lines += ["    Deliver +1ms #0: BroadcastFilter{1a2b 10123/u0 ReceiverList{3c4d 77 com.elsewhere/10123/u0 remote:5e6f}}"]
            for number, receiver in enumerate(reply.receivers, 1):
                package, _, name = str(receiver.to).partition("/")
                word = "Deliver +2ms" if receiver.verdict == "admitted" else "Skipped 0"
                lines += [f"    {word} #{number}: (manifest)", "      priority=0 preferredOrder=0 match=0x108000 specificIndex=-1 isDefault=false"]
                lines += ["      ActivityInfo:", f"        name={name}", f"        packageName={package}"]
        return Said(0, "".join(f"{it}\n" for it in lines), "")

    def _log(self, line: tuple[str, ...]) -> Said:
        lines = [f"06-01 12:00:00.000  1000  1234 I ActivityTaskManager: {it}" for it in self.started]
        return Said(0, "".join(f"{it}\n" for it in ["--------- beginning of system", *lines]), "")

    def _stop(self, line: tuple[str, ...]) -> Said:
        return self._by_words(line)

    def _key(self, line: tuple[str, ...]) -> Said:
        return OK


Answer = Callable[[StandIn, tuple[str, ...]], Said]
SHELL_WORDS: Mapping[tuple[str, ...], Answer] = {
    ("pm", "list", "packages"): StandIn._list,
    ("pm", "path"): StandIn._pm_path,
    ("pm", "get-app-links"): StandIn._links,
    ("dumpsys", "package"): StandIn._dump,
    ("dumpsys", "activity", "broadcasts"): StandIn._broadcasts,
    ("cmd", "role", "holders"): StandIn._unknown_role,
    ("cmd", "role", "get-role-holders"): StandIn._role,
    ("getprop",): StandIn._property,
    ("am", "start"): StandIn._start,
    ("am", "broadcast"): StandIn._send,
    ("am", "force-stop"): StandIn._stop,
    ("run-as",): StandIn._run_as,
    ("logcat",): StandIn._log,
    ("input", "keyevent"): StandIn._key,
}


def _dump_of(package: Package, phone: StandIn) -> str:
    """What `dumpsys package` says, with what must not be taken for the first user's or the installed package's."""
    settings = phone.settings
    granted = [it.permission for it in phone.phone.file.grants if it.package == package.name]
    # some are granted at installation, and the others at run time
    install, runtime = granted[::2], granted[1::2]
    state = f"stopped={str(package.name in settings.stopped).lower()} notLaunched=false enabled={3 if package.name in settings.disabled else 0}"
    head = ["Activity Resolver Table:", "  Non-Data Actions:", f"      x.A:\n        1a2b {package.name}/.X filter 3c4d", "", "Packages:", f"  Package [{package.name}] (1a2b3c):"]
    head += ["    userId=10000", f"    pkg=Package{{1a2b3c {package.name}}}", "    requested permissions:", "      x.ASKED: restricted=true", "    install permissions:"]
    lines = head + [f"      {it}: granted=true" for it in install] + ["      x.NOT: granted=false"]
    lines += [f"    User 0: ceDataInode=7 installed=true hidden=false suspended=false distractionFlags=0 {state} instant=false virtual=false", "      gids=[3003]"]
    lines += ["      runtime permissions:", *(f"        {it}: granted=true, flags=[ USER_SET|USER_SENSITIVE_WHEN_GRANTED]" for it in runtime), "        x.DENIED: granted=false"]
    lines += _switched("disabledComponents:", package.components, settings.off) + _switched("enabledComponents:", package.components, settings.on)
    lines += ["    User 10: ceDataInode=0 installed=false hidden=false suspended=false stopped=true enabled=2 instant=false virtual=false"]
    lines += ["      runtime permissions:", "        x.OTHER_USER: granted=true", "      disabledComponents:", *(f"        {it.name}" for it in package.components)]
    lines += ["", "Hidden system packages:", f"  Package [{package.name}] (4d5e6f):", "    install permissions:", "      x.HIDDEN: granted=true", ""]
    return "".join(f"{it}\n" for it in lines)


def _switched(heading: str, components: Sequence[Component], names: Sequence[str]) -> list[str]:
    found = [it.name for it in components if it.name in names]
    return [f"      {heading}", *(f"        {it}" for it in found)] if found else []
