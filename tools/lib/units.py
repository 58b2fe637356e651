"""The command lines of the units in packaging/, as systemd makes them where /etc/default has no file of settings."""
import re

from lib.programs import TOP

SETTINGS = "/etc/default/fanjuvery-tftpd"


def settings_of(unit: str) -> dict[str, str]:
    """What a unit sets by itself."""
    text = (TOP / "packaging" / unit).read_text()
    return dict(re.findall(r'(?m)^Environment="?(\w+)=([^"\n]*)"?$', text))


def arguments_of(unit: str) -> list[str]:
    """The arguments that a unit starts tftpd with; `%t` and `%i` are as they stand there."""
    found = re.search(r'(?m)^ExecStart="[^"]+" (.*)$', (TOP / "packaging" / unit).read_text())
    return re.sub(r"\$\{?(\w+)\}?", lambda name: settings_of(unit)[name[1]], found[1] if found else "").split()
