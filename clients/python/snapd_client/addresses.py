"""Where a server listens: words to addresses, and names to what the system calls them."""

import socket
import threading
from typing import Callable, List, NamedTuple, Optional, Tuple, Union

Address = Union[str, Tuple[str, int]]
# A family of addresses, and one of them as `socket.connect` takes it.
Place = Tuple[int, Union[str, Tuple[str, int], Tuple[str, int, int, int], Tuple[int, bytes]]]
Places = List[Place]

MAX_PORT = 65_535
# What Linux leaves of a socket's name for its path.
MAX_PATH = 107
UNIX = "unix:"


class OfHost(NamedTuple):
    """A port of a host, which is a name or a number."""

    host: str
    port: int

    def __str__(self) -> str:
        return f"{self.host}:{self.port}"


class OfFile(NamedTuple):
    """A Unix socket, which is a file."""

    path: str

    def __str__(self) -> str:
        return UNIX + self.path


def parse(address: Address) -> Union[OfHost, OfFile]:
    """The address of these words. `ValueError` where they are none."""
    if not isinstance(address, str):
        host, number = address
        return _of_host(host, int(number))
    if address.startswith(UNIX):
        return _of_file(address[len(UNIX) :])
    host, colon, port = address.rpartition(":")
    if not colon or not (port.isascii() and port.isdigit()):
        raise ValueError(f"an address is HOST:PORT, not {address!r}")
    if host.startswith("[") and host.endswith("]"):
        host = host[1:-1]
    return _of_host(host, int(port))


def _of_host(host: str, port: int) -> OfHost:
    if not 1 <= port <= MAX_PORT:
        raise ValueError(f"a port is 1 to {MAX_PORT}, not {port}")
    return OfHost(host, port)


def _of_file(path: str) -> OfFile:
    if not path or "\0" in path or len(path.encode("utf-8", "surrogateescape")) > MAX_PATH:
        raise ValueError(f"the path of a Unix socket has 1 to {MAX_PATH} bytes, none of them 0: {path!r}")
    if not hasattr(socket, "AF_UNIX"):
        raise ValueError("this system has no Unix sockets")
    return OfFile(path)


def known(address: Union[OfHost, OfFile]) -> Optional[Places]:
    """The places of an address that needs no look-up: a socket's path or a numeric host. Else `None`."""
    if isinstance(address, OfFile):
        return [(socket.AF_UNIX, address.path)]
    try:
        return _asked(address, socket.AI_NUMERICHOST)
    except socket.gaierror:
        return None


def look_up(address: OfHost, tell: Callable[[Union[Places, Exception]], None]) -> None:
    """Calls `tell` with the places of a host, one or more, or the reason why there is none.

    The system's look-up has no timeout and can't be cancelled. So it is made in a thread of its own, and the caller
    waits for as long as it likes; but if no thread can be started, as at the end of a process, it takes as long as it
    takes.
    """

    def work() -> None:
        told: Union[Places, Exception]
        try:
            told = _asked(address, 0)
        except Exception as error:
            told = error
        tell(told)

    try:
        threading.Thread(target=work, name="snapd look-up", daemon=True).start()
    except RuntimeError:
        work()


def _asked(address: OfHost, flags: int) -> Places:
    found = socket.getaddrinfo(address.host, address.port, type=socket.SOCK_STREAM, flags=flags)
    return [(family, place) for family, _, _, _, place in found]
