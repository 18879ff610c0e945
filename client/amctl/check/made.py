"""Makes findings: with their place in the app's manifest."""
from amctl.check.app import App
from amctl.check.asking import Exchange
from amctl.findings.finding import Finding


def at(app: App, path: str, rule: str, about: str, message: str, *exchanges: Exchange | None) -> Finding:
    """A finding at a path of the manifest, with what shows it."""
    return Finding(rule, about, message, app.place(path), path, tuple(it for it in exchanges if it is not None))
