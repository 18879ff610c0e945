"""What wasn't looked at: what the converter leaves out of an app, since a device file can't say it."""
from collections.abc import Iterator

from amctl.check.app import App
from amctl.findings.finding import LEFT_OUT, Finding


def check(app: App) -> Iterator[Finding]:
    paths = {it.component.partition("/")[2]: it.at for it in app.components}
    for place, what in app.left_out:
        yield Finding(LEFT_OUT, place, what, at=paths.get(place, "package"))
