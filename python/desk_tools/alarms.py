"""An address on the web that gets alarms: its path often has a secret in it, and each line names what is wrong here."""

import ipaddress
import re
import urllib.parse

WEB = "https://", "http://"
# An address without encryption, by itself or as a word of a command.
PLAIN = re.compile(r"(?:^|(?<=[\s'\"]))http://[^\s'\"]*")


def is_open(text: str) -> bool:
    """Whether what is sent to this address, or to one that a command names, can be read on its way.

    It has no encryption then, and is not this machine itself.
    """
    return any(map(is_elsewhere, PLAIN.findall(text)))


def is_elsewhere(address: str) -> bool:
    """Whether an address is another machine's."""
    host = urllib.parse.urlsplit(address).hostname or ""
    try:
        return not ipaddress.ip_address(host).is_loopback
    except ValueError:
        return host != "localhost"
