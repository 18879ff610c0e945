"""`python3 -m amctl`, and the script `amctl`."""
import sys


def run() -> None:
    if not sys.stdout.isatty():
        _load_typer_alone()
    from amctl.cli import main

    sys.exit(main())


def _load_typer_alone() -> None:
    """Has typer find no rich, whose loading takes as long as all else; what isn't a terminal gets plain text anyway."""
    # the import of a module that is None here fails
    sys.modules["rich"] = None  # type: ignore[assignment]
    try:
        import typer  # noqa: F401
    finally:
        del sys.modules["rich"]


if __name__ == "__main__":
    run()
