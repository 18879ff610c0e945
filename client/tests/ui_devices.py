"""Devices of many apps and of long names, for the tests of the page."""
from pathlib import Path

LINK = "https://shop.example/offers"
NEWS = "org.example.NEWS"
DEFAULT, BROWSABLE = "android.intent.category.DEFAULT", "android.intent.category.BROWSABLE"
VIEW = "android.intent.action.VIEW"
LONG = 60


def many_apps(folder: Path, count: int) -> Path:
    """A browser, and shops of which each fifth claims the shop's links; all are told the news."""
    browser = _app("com.browser", _component("activity", ".Page", _filter(VIEW, '{ scheme = "https" }')))
    return _written(folder, count, [browser, *(_shop(f"com.app{number:02}", number % 5 == 0) for number in range(1, count))])


def long_names(folder: Path, count: int) -> Path:
    """Apps whose packages, classes, actions and hosts have 60 characters each and no place to break at."""
    return _written(folder, count, [_long_app(number) for number in range(count)])


def long(text: str) -> str:
    """The text with as many letters behind it as a name of 60 characters needs."""
    return text.ljust(LONG, "x")


def _shop(package: str, is_claiming: bool) -> str:
    link = [_component("activity", ".Offers", _filter(VIEW, '{ scheme = "https", host = "shop.example" }'))] if is_claiming else []
    main = _component("activity", ".Main", _filter("android.intent.action.MAIN"))
    return _app(package, *link, main, _component("receiver", ".News", _filter(NEWS)), _component("service", ".Sync", _filter("org.example.SYNC")))


def _long_app(number: int) -> str:
    package = long(f"com.app{number}")
    link = _filter(VIEW, f'{{ scheme = "https", host = "{long("shop")}" }}')
    share = _filter(long("org.example.SHARE"))
    return _app(package, *(_component(kind, long(f".{kind}"), link, share) for kind in ("activity", "receiver")), _component("service", long(".Sync"), share))


def _app(package: str, *components: str) -> str:
    return f'[[package]]\nkey = "key-of-{package}"\n[package.manifest]\npackage = "{package}"\n{"".join(components)}'


def _component(kind: str, name: str, *filters: str) -> str:
    return f'[[package.manifest.{kind}]]\nname = "{name}"\nexported = true\nintent-filter = [{", ".join(filters)}]\n'


def _filter(action: str, data: str = "") -> str:
    return f'{{ action = ["{action}"], category = ["{DEFAULT}", "{BROWSABLE}"], data = [{data}] }}'


def _written(folder: Path, count: int, apps: list[str]) -> Path:
    file = folder / f"of-{count}-apps.toml"
    exempt = f'exempt = ["{NEWS}", "{long("org.example.SHARE")}"]\n'
    file.write_text('system_key = "system"\n' + exempt + "\n".join(apps), encoding="utf-8")
    return file
