"""Android's names of actions and categories, and the one of them that a misspelt name was meant to be."""
import difflib
import functools
from collections.abc import Iterable

ACTION_PREFIX = "android.intent.action."
CATEGORY_PREFIX = "android.intent.category."
ACTIONS = frozenset(
    ACTION_PREFIX + it
    for it in """
    AIRPLANE_MODE ALL_APPS ANSWER APPLICATION_PREFERENCES APPLICATION_RESTRICTIONS_CHANGED APP_ERROR ASSIST ATTACH_DATA
    BATTERY_CHANGED BATTERY_LOW BATTERY_OKAY BOOT_COMPLETED BUG_REPORT CALL CALL_BUTTON CAMERA_BUTTON CARRIER_SETUP CHOOSER
    CLOSE_SYSTEM_DIALOGS CONFIGURATION_CHANGED CREATE_DOCUMENT CREATE_LIVE_FOLDER CREATE_REMINDER CREATE_SHORTCUT DATE_CHANGED
    DEFINE DELETE DEVICE_STORAGE_LOW DEVICE_STORAGE_OK DIAL DOCK_EVENT DREAMING_STARTED DREAMING_STOPPED EDIT
    EXTERNAL_APPLICATIONS_AVAILABLE EXTERNAL_APPLICATIONS_UNAVAILABLE FACTORY_TEST GET_CONTENT GET_RESTRICTION_ENTRIES
    GTALK_CONNECTED GTALK_DISCONNECTED HEADSET_PLUG INPUT_METHOD_CHANGED INSERT INSERT_OR_EDIT INSTALL_FAILURE INSTALL_PACKAGE
    LOCALE_CHANGED LOCKED_BOOT_COMPLETED MAIN MANAGE_NETWORK_USAGE MANAGE_PACKAGE_STORAGE MANAGE_UNUSED_APPS MEDIA_BAD_REMOVAL
    MEDIA_BUTTON MEDIA_CHECKING MEDIA_EJECT MEDIA_MOUNTED MEDIA_NOFS MEDIA_REMOVED MEDIA_SCANNER_FINISHED
    MEDIA_SCANNER_SCAN_FILE MEDIA_SCANNER_STARTED MEDIA_SEARCH MEDIA_SHARED MEDIA_UNMOUNTABLE MEDIA_UNMOUNTED MUSIC_PLAYER
    MY_PACKAGE_REPLACED MY_PACKAGE_SUSPENDED MY_PACKAGE_UNSUSPENDED NEW_OUTGOING_CALL OPEN_DOCUMENT OPEN_DOCUMENT_TREE
    PACKAGES_SUSPENDED PACKAGES_UNSUSPENDED PACKAGE_ADDED PACKAGE_CHANGED PACKAGE_DATA_CLEARED PACKAGE_FIRST_LAUNCH
    PACKAGE_FULLY_REMOVED PACKAGE_INSTALL PACKAGE_NEEDS_VERIFICATION PACKAGE_REMOVED PACKAGE_REPLACED PACKAGE_RESTARTED
    PACKAGE_VERIFIED PASTE PHONE_STATE PICK PICK_ACTIVITY ACTION_POWER_CONNECTED ACTION_POWER_DISCONNECTED POWER_USAGE_SUMMARY PROCESS_TEXT
    PROVIDER_CHANGED PROXY_CHANGE QUICK_CLOCK QUICK_VIEW REBOOT RUN SCREEN_OFF SCREEN_ON SEARCH SEARCH_LONG_PRESS SEND SENDTO
    SEND_MULTIPLE SET_ALARM SET_TIMER SET_WALLPAPER SHOW_ALARMS SHOW_APP_INFO ACTION_SHUTDOWN SYNC SYSTEM_TUTORIAL TIMEZONE_CHANGED
    TIME_SET TIME_TICK TRANSLATE UID_REMOVED UMS_CONNECTED UMS_DISCONNECTED UNINSTALL_PACKAGE USER_BACKGROUND USER_FOREGROUND
    USER_INITIALIZE USER_PRESENT USER_UNLOCKED VIEW VIEW_LOCUS VIEW_PERMISSION_USAGE VIEW_PERMISSION_USAGE_FOR_PERIOD VOICE_COMMAND
    WALLPAPER_CHANGED WEB_SEARCH
    """.split()
)
CATEGORIES = frozenset(
    CATEGORY_PREFIX + it
    for it in """
    ACCESSIBILITY_SHORTCUT_TARGET ALTERNATIVE APP_BROWSER APP_CALCULATOR APP_CALENDAR APP_CONTACTS APP_EMAIL APP_FILES APP_GALLERY
    APP_MAPS APP_MARKET APP_MESSAGING APP_MUSIC BROWSABLE CAR_DOCK CAR_MODE CAR_LAUNCHER COMMUNAL_MODE DEFAULT DESK_DOCK
    DEVELOPMENT_PREFERENCE EMBED FRAMEWORK_INSTRUMENTATION_TEST HE_DESK_DOCK HOME INFO LAUNCHER LEANBACK_LAUNCHER LE_DESK_DOCK
    MONKEY OPENABLE PREFERENCE SAMPLE_CODE SECONDARY_HOME SELECTED_ALTERNATIVE TAB TEST TYPED_OPENABLE UNIT_TEST VOICE VR_HOME
    """.split()
)
MODES = ("standard", "singleTop", "singleTask", "singleInstance", "singleInstancePerTask")


@functools.lru_cache(maxsize=4096)
def meant(value: str, known: frozenset[str]) -> str | None:
    """The known name that was meant by one that isn't known: by its case, by its constant, or by one letter."""
    names = sorted(known)
    if value in names:
        return None
    bare = value.removeprefix("Intent.").removeprefix("ACTION_").removeprefix("CATEGORY_")
    for name in names:
        if value.lower() == name.lower() or ("." not in bare and bare.upper() == name.rpartition(".")[2]):
            return name
    return next((name for name in names if is_one_off(value, name)), None)


class Names:
    """Names among which the one that was likely meant is found without a look at each."""

    def __init__(self, names: Iterable[str]) -> None:
        self._names = sorted(set(names))

    def near(self, value: str) -> str | None:
        """The first other name that was likely meant: the same except for case, for one letter, or for what comes before its last part."""
        found = _first(self._by_case.get(value.lower(), []), value)
        if found is None:
            found = self._one_off(value)
        return _first(self._by_last.get(_last(value), []), value) if found is None else found

    def _one_off(self, value: str) -> str | None:
        found = {it for rest in _rests(value) for it in self._by_rest.get(rest, [])}
        return min((it for it in found if it != value and is_one_off(value, it)), default=None)

    @functools.cached_property
    def _by_case(self) -> dict[str, list[str]]:
        return _grouped((it.lower(), it) for it in self._names)

    @functools.cached_property
    def _by_last(self) -> dict[str, list[str]]:
        return _grouped((_last(it), it) for it in self._names)

    @functools.cached_property
    def _by_rest(self) -> dict[str, list[str]]:
        return _grouped((rest, it) for it in self._names for rest in _rests(it))


def _grouped(pairs: Iterable[tuple[str, str]]) -> dict[str, list[str]]:
    found: dict[str, list[str]] = {}
    for key, name in pairs:
        found.setdefault(key, []).append(name)
    return found


def _first(names: Iterable[str], but: str) -> str | None:
    return next((it for it in names if it != but), None)


def _last(name: str) -> str:
    return name.rpartition(".")[2]


def _rests(text: str) -> set[str]:
    """The text, and what is left of it without one letter: two texts that are one off have such a rest in common."""
    return {text, *(text[:at] + text[at + 1 :] for at in range(len(text)))}


def near_name(value: str, others: Iterable[str]) -> str | None:
    """The other name that was likely meant."""
    return _names_of(frozenset(others)).near(value)


@functools.lru_cache(maxsize=4)
def _names_of(names: frozenset[str]) -> Names:
    # many values are held against the same names
    return Names(names)


def is_one_off(text: str, other: str) -> bool:
    """Whether one letter more, less or other makes one of the other, or two that changed places."""
    if abs(len(text) - len(other)) > 1:
        return False
    at = next((at for at, (one, two) in enumerate(zip(text, other)) if one != two), min(len(text), len(other)))
    mine, its = text[at:], other[at:]
    swapped = mine[1:2] + mine[:1] + mine[2:]
    return mine[1:] == its or mine == its[1:] or mine[1:] == its[1:] or swapped == its


def mode_meant(value: str) -> str | None:
    """The launch mode that was meant."""
    plain = value.lower().replace("_", "").replace("-", "").removeprefix("launch")
    by_plain = {it.lower(): it for it in MODES}
    found = difflib.get_close_matches(plain, list(by_plain), 1, 0.8)
    return by_plain[found[0]] if found and value not in MODES else None
