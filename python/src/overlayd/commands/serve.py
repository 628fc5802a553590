"""Serves a register, or a store of overlay_live, on the web: OGC API - Features, and a page with a map.

    overlay serve land.gpkg --writable                     a register, whose features can be changed
    overlay serve PG:service=land                          one in PostGIS, for reading
    overlay serve --store map.db                           http://127.0.0.1:8080/
    overlay serve --store map.db --create --writable       layers can be defined and dropped

Without --writable the store is opened for reading alone, so several fronts serve one file at once. It listens on the
loopback unless --host says otherwise, and is never writable elsewhere: to serve writes put a server with names and
passwords before it. map.scale.json beside map.db, as overlay import writes it, says what its whole numbers mean.
web/README.md has more.

Status 0: ended by SIGTERM or an interrupt; 1: the store could not be opened, nobody can listen at the address,
overlay_live has ended by itself or by a fault or answers no more, or a copy of the store is in its place after a
write failed, each of which is reported: begin it anew; 2: wrong words."""

import contextlib
import ipaddress
import urllib.parse

import click

from ..web.usual import LEAFLET, LOOPBACK
from ..words import FILE, Words, argument, flag, option, subcommand


def is_loopback(host: str) -> bool:
    with contextlib.suppress(ValueError):
        return ipaddress.ip_address(host).is_loopback
    return host == "localhost"


def is_address(text: str) -> bool:
    """Whether a text is the address of a server of the web."""
    try:
        parts = urllib.parse.urlsplit(text)
        return parts.scheme in ("http", "https") and bool(parts.hostname) and parts.port != 0
    except ValueError:  # a bracket without its other one, or a port that is none
        return False


def hosts_of(words: Words) -> set[str]:
    """The names in the Host of a good question."""
    host = words.host.lower()
    own = f"[{host}]" if ":" in host else host
    return {own, *(LOOPBACK if is_loopback(host) else ()), *(name.lower() for name in words.name)}


@subcommand(
    __doc__, argument("register", required=False, metavar="[REGISTER]"),
    option("--who", "of a register: the header in which a server before this one says who asks", metavar="HEADER"),
    option("--store", "the store; without it all is lost at the end", FILE, metavar="FILE"),
    flag("--create", "make the store anew"),
    option("--scale", "what its whole numbers mean (default: NAME.scale.json beside the store, if it is there)", FILE,
           metavar="FILE"),
    flag("--as-stored", "transform nothing"),
    flag("--writable", "let the page and PUT, DELETE and POST change layers"),
    option("--host", "the address to listen on (default 127.0.0.1)", default="127.0.0.1"),
    option("--port", "the port; 0 for one that is free (default 8080)", int, default=8080),
    option("--base", "the address that a server before this one is asked by", metavar="URL"),
    option("--name", "a further name in the Host of questions", multiple=True),
    option("--workers", "threads that build tiles, 1 to 8 (default 2)", click.IntRange(1, 8), default=2),
    option("--program", "overlay_live (default: as the tools find it)", metavar="PATH"),
    option("--leaflet", f"where Leaflet is (default {LEAFLET})", FILE, default=LEAFLET, metavar="FOLDER"))
def command(words: Words) -> int:
    if words.writable and not is_loopback(words.host):
        raise click.UsageError("--writable is for the loopback alone")
    if words.register and (words.store or words.create or words.scale):
        raise click.UsageError("a register or a --store, and not both")
    if not words.writable and (words.create or not (words.store or words.register)):
        raise click.UsageError("without --writable it reads: name a register or a --store that is there")
    if words.base is not None and not is_address(words.base):
        raise click.UsageError("--base is the address of a server, which begins with http:// or https://")
    from ..web import running

    return running.run(words, hosts_of(words))
