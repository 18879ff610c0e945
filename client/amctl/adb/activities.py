"""`am start`, `am force-stop`, `pm clear`, `am stack list` and `am get-current-user`."""
from dataclasses import dataclass
from typing import ClassVar

from amctl import words_adb
from amctl.adb import flags
from amctl.adb.command import Leaves
from amctl.adb.console import Console, Failed, NotServed, Thrown
from amctl.adb.installed import uid_of
from amctl.adb.intents import AskedIntent, read_intent, short
from amctl.adb.options import Words, user
from amctl.adb.phone import Phone
from amctl.device import Refusal
from amctl.results import Account, Choose, Placed, Task

RESOLVER = "android/com.android.internal.app.ResolverActivity"
DELIVERED = "Warning: Activity not started, intent has been delivered to currently running top-most instance."
FRONTED = "Warning: Activity not started, its current task has been brought to the front"
DENIALS = ("not_exported", "needs_permission")


@dataclass(frozen=True)
class Start:
    """`am start`. If it waits, its complaints go to standard output."""

    leaves: ClassVar[Leaves] = "state"

    intent: AskedIntent
    waits: bool = False
    stops_first: bool = False
    user: str = "0"

    @classmethod
    def read(cls, words: Words, name: str) -> "Start":
        given: dict[str, bool] = {}
        users: list[str] = []

        def take(option: str) -> bool:
            if option in ("-W", "-S"):
                given["waits" if option == "-W" else "stops_first"] = True
                return True
            return take_common(option, words, users)

        intent = read_intent(words, take)
        return cls(intent, given.get("waits", False), given.get("stops_first", False), *users[-1:])

    def run(self, phone: Phone, console: Console) -> int:
        if self.user == "all":
            raise Failed("Error: Can't start service with user 'all'")
        asked = self.intent.flagged(flags.NEW_TASK)
        sent = asked.sent("activity")
        for flag in flags.dropped(self.intent.flags):
            console.note(words_adb.dropped_flag(flag))
        if self.stops_first:
            self._stop(phone, console)
        console.say(f"Starting: {self.intent}")
        before = phone.device.system.tasks()
        try:
            placed = phone.caller.start(sent)
        except Refusal as refused:
            self._complain(console, *_refused(refused, asked, phone))
            return 0
        if isinstance(placed, Choose):
            console.note(words_adb.choice(placed.choose))
            self._tell(console, "COLD", RESOLVER)
            return 0
        self._complain(console, *_warning(placed, before))
        self._tell(console, _launch_state(placed, before, phone), _component(placed, phone))
        return 0

    def _complain(self, console: Console, *lines: str) -> None:
        for line in lines:
            (console.say if self.waits else console.complain)(line)

    def _tell(self, console: Console, state: str, component: str) -> None:
        """What `-W` says. Nothing takes time here."""
        if self.waits:
            for line in ("Status: ok", f"LaunchState: {state}", f"Activity: {short(component)}", "TotalTime: 0", "WaitTime: 0", "Complete"):
                console.say(line)

    def _stop(self, phone: Phone, console: Console) -> None:
        fields = self.intent.sent("activity")
        found = (fields.component,) if fields.component else phone.caller.query("activity", fields)
        if len(found) != 1:
            what = "matches multiple activities; can't stop:" if found else "does not match any activities:"
            raise Failed(f"Error: Intent {what} {self.intent}")
        package = found[0].partition("/")[0]
        console.say(f"Stopping: {package}")
        _force_stop(phone, package)


@dataclass(frozen=True)
class ForceStop:
    leaves: ClassVar[Leaves] = "state"

    package: str

    @classmethod
    def read(cls, words: Words, name: str) -> "ForceStop":
        while (option := words.option()) is not None:
            if option != "--user":
                raise Failed(f"Error: Unknown option: {option}", 255)
            user(words.value())
        return cls(words.value())

    def run(self, phone: Phone, console: Console) -> int:
        _force_stop(phone, self.package)
        return 0


@dataclass(frozen=True)
class Clear:
    """`pm clear`, which only stops the package: there are no data."""

    leaves: ClassVar[Leaves] = "state"

    package: str

    @classmethod
    def read(cls, words: Words, name: str) -> "Clear":
        while (option := words.option()) is not None:
            if option != "--user":
                raise NotServed(words_adb.no_option("pm clear", option))
            user(words.value())
        package = words.bare()
        if package is None:
            raise Failed("Error: no package specified")
        return cls(package)

    def run(self, phone: Phone, console: Console) -> int:
        if not phone.device.is_installed(self.package):
            console.say("Failed")
            return 1
        _force_stop(phone, self.package)
        console.say("Success")
        console.note(words_adb.only_stopped(self.package))
        return 0


@dataclass(frozen=True)
class CurrentUser:
    """`am get-current-user`: there is one user."""

    leaves: ClassVar[Leaves] = "nothing"

    @classmethod
    def read(cls, words: Words, name: str) -> "CurrentUser":
        return cls()

    def run(self, phone: Phone, console: Console) -> int:
        console.say("0")
        return 0


@dataclass(frozen=True)
class StackList:
    leaves: ClassVar[Leaves] = "nothing"
    @classmethod
    def read(cls, words: Words, name: str) -> "StackList":
        what = words.bare()
        if what != "list":
            raise NotServed(words_adb.no_subcommand("am stack", what or ""))
        return cls()

    def run(self, phone: Phone, console: Console) -> int:
        for index, task in enumerate(phone.device.system.tasks()):
            console.say(f"RootTask id={task.task} bounds=[0,0][0,0] displayId=0 userId=0")
            root, top = task.instances[0].component, task.instances[-1].component
            visible = "true" if index == 0 else "false"
            rest = f"bounds=[0,0][0,0] userId=0 visible={visible} topActivity=ComponentInfo{{{top}}}"
            console.say(f"  taskId={task.task}: {root} {rest}")
            console.say()
        return 0


def take_common(option: str, words: Words, users: list[str]) -> bool:
    """Takes an option that every command with an intent has."""
    if option == "--user":
        users.append(user(words.value()))
        return True
    if option in words_adb.NO_OPTIONS:
        raise NotServed(words_adb.NO_OPTIONS[option])
    return False


def _force_stop(phone: Phone, package: str) -> None:
    try:
        phone.device.system.force_stop(package)
    except Refusal as refused:
        # Android is silent about a package that isn't there
        if refused.rule != "no_package":
            raise


def _refused(refused: Refusal, asked: AskedIntent, phone: Phone) -> tuple[str, ...]:
    """The lines of a start that is refused; a denial is an exception."""
    if refused.rule == "no_activity":
        return (f"Error: Activity not started, unable to resolve {asked}",)
    if refused.rule == "no_component" and asked.fields.component:
        return ("Error type 3", f"Error: Activity class {{{asked.fields.component}}} does not exist.")
    if refused.rule in DENIALS:
        raise Thrown.security(_denial(refused, asked, phone))
    raise refused


def _denial(refused: Refusal, asked: AskedIntent, phone: Phone) -> str:
    found = asked.fields.component or _denied(phone, asked)
    why = f"not exported from uid {uid_of(phone, found.partition('/')[0])}" if refused.rule == "not_exported" else f"requires {refused.name}"
    caller = uid_of(phone, phone.caller.package)
    return f"Permission Denial: starting {asked.to(found)} from null (pid=0, uid={caller}) {why}"


def _denied(phone: Phone, asked: AskedIntent) -> str:
    """The activity that an implicit intent found and may not start."""
    accounts: tuple[Account, ...] = phone.caller.explain("activity", asked.sent("activity"))
    return next(str(it.to) for it in accounts if it.verdict in DENIALS)


def _warning(placed: Placed, before: tuple[Task, ...]) -> tuple[str, ...]:
    if placed.placed == "fresh":
        return ()
    return (DELIVERED if before and before[0].task == placed.task else FRONTED,)


def _launch_state(placed: Placed, before: tuple[Task, ...], phone: Phone) -> str:
    if placed.placed != "fresh":
        # Android measures no launch if the task was in front already
        return "UNKNOWN (0)" if before and before[0].task == placed.task else "HOT"
    package = _component(placed, phone).partition("/")[0]
    ran = any(it.component.startswith(f"{package}/") for task in before for it in task.instances)
    return "WARM" if ran else "COLD"


def _component(placed: Placed, phone: Phone) -> str:
    return phone.device.component_of(placed) or "?"
