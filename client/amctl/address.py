"""Where a server is: its URL, the user that it asks for, and the authority that vouches for it."""
import base64
import os
import re
from collections.abc import Mapping
from dataclasses import dataclass, field
from pathlib import Path
from typing import TYPE_CHECKING
from urllib.parse import unquote, urlsplit

from amctl import words, words_server
from amctl.errors import BadWords, NoServer

if TYPE_CHECKING:
    import ssl

USER_VARIABLE = "AMCTL_USER"
CA_VARIABLE = "AMCTL_CA"
PORTS = {"http": 80, "https": 443}
VISIBLE = re.compile(r"[!-~]*")


@dataclass(frozen=True)
class Address:
    """A server's host and port, and the path before each route. `url` is what is shown: it has no password."""

    url: str
    host: str
    port: int
    path: str
    is_tls: bool
    login: str | None = field(default=None, repr=False)
    ca: Path | None = None

    @classmethod
    def of(
        cls, url: str, user: str | None = None, ca: str | Path | None = None, environment: Mapping[str, str] = os.environ
    ) -> "Address":
        """The address of a URL. A user, `NAME:PASSWORD`, is the one given, else the URL's, else that of AMCTL_USER."""
        try:
            parts = urlsplit(url)
            port = parts.port or PORTS[parts.scheme]
        except (ValueError, KeyError):
            raise NoServer(words.no_url(shown(url))) from None
        if not parts.hostname or parts.query or parts.fragment or not VISIBLE.fullmatch(url):
            raise NoServer(words.no_url(shown(url)))
        of_url = None if parts.username is None else f"{unquote(parts.username)}:{unquote(parts.password or '')}"
        login = user or of_url or environment.get(USER_VARIABLE) or None
        if login is not None and ":" not in login:
            raise BadWords(words_server.no_user())
        is_tls = parts.scheme == "https"
        named = ca or environment.get(CA_VARIABLE) or None
        return cls(shown(url), parts.hostname, port, parts.path.rstrip("/"), is_tls, login, Path(named) if named and is_tls else None)

    @property
    def fields(self) -> dict[str, str]:
        """The fields of each request: whom it asks, and who asks."""
        name = f"[{self.host}]" if ":" in self.host else self.host
        usual = PORTS["https" if self.is_tls else "http"]
        found = {"Host": name if self.port == usual else f"{name}:{self.port}", "Connection": "close"}
        if self.login is not None:
            found["Authorization"] = "Basic " + base64.b64encode(self.login.encode()).decode()
        return found

    def context(self) -> "ssl.SSLContext":
        """What trusts the machine's authorities, or the given one alone."""
        # OpenSSL takes a while to load, and only TLS needs it
        import ssl

        try:
            return ssl.create_default_context(cafile=self.ca)
        except (OSError, ssl.SSLError) as fault:
            raise BadWords(words_server.no_ca(str(self.ca), fault.strerror or str(fault))) from None


def shown(url: str) -> str:
    """A URL without the user and the password in it."""
    return re.sub(r"^([^/]*//)[^/]*@", r"\1", url)
