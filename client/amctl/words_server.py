"""Sentences of what goes wrong on the way to a server, and of a session that ends: what is so, and what to do."""
from collections.abc import Mapping, Sequence

INTERRUPTED = "the session is closed, since a call was interrupted and its answer is still to come: open the device again."
NO_KEY = "the caller's key can't be sent: a key is 1 to 255 visible ASCII characters."

# what a server that stands before many devices answers by itself
FRONT: Mapping[str, str] = {
    "no_device": "the server has no device of this name: check the name in the URL, as in https://HOST/d/NAME.",
    "busy": "too many calls of this device are under way: ask again a little later.",
    "device_down": "the device isn't running, or ended or was silent, and may have made the call: start it, and look into its history.",
}


# a command, a program and a shell each have a way to say it
BY_USER = "by `--user`, `user=` or AMCTL_USER"
BY_CA = "by `--ca`, `ca=` or AMCTL_CA"


def no_user() -> str:
    return f"the user has no password: write NAME:PASSWORD, {BY_USER}."


def no_ca(file: str, why: str) -> str:
    return f"{file} has no certificate of an authority that can be read ({why}): name a file in PEM, {BY_CA}."


def untrusted(url: str, why: str) -> str:
    return f"{url} can't be trusted ({why}): name the certificate of its authority, {BY_CA}, and the host that it is for."


def no_tls(url: str, why: str) -> str:
    return f"{url} doesn't speak TLS ({why}): check the port, or ask by http://."


def needs_user(url: str) -> str:
    return f"{url} asks for a user and a password, or for others than these: give NAME:PASSWORD, {BY_USER}."


def unreachable(url: str, why: str) -> str:
    return f"{url} isn't reached ({why}): check the host, or start a server by `amctl serve device.toml` and take the URL that it prints."


def of_session(test: str, names: Sequence[str]) -> str:
    return f"{test} asks a server by `url`, which has a clock and a store of its own: leave out {', '.join(f'`{it}`' for it in names)}."
