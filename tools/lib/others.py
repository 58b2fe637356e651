"""Clients and servers of other projects: the words that start each."""
import os
import shutil
from typing import Any

PATH = os.environ["PATH"] + ":/usr/sbin:/sbin"
# A get and a put by each client, whose first word is its program
CLIENTS = {
    "curl": ("curl -s -o {local} tftp://{host}:{port}/{name}", "curl -s -T {local} tftp://{host}:{port}/{name}"),
    "atftp": ("atftp -g -r {name} -l {local} {host} {port}", "atftp -p -r {name} -l {local} {host} {port}"),
    "busybox": ("busybox tftp -g -r {name} -l {local} {host} {port}", "busybox tftp -p -r {name} -l {local} {host} {port}"),
    "tftp": ("tftp -m {mode} {host} {port} -c get {name} {local}", "tftp -m {mode} {host} {port} -c put {local} {name}"),
}
# A server of a folder at an address, as a user
SERVERS = {
    "in.tftpd": "--foreground --address {host}:{port} --create --user {user} --secure {root}",
    "atftpd": "--daemon --no-fork --bind-address {host} --port {port} --user {user}.{group} --logfile /dev/null --verbose=0 "
              "{root}",
    # (of its own port, 69)
    "dnsmasq": "--no-daemon --conf-file=/dev/null --user=root --listen-address={host} --port=0 --bind-interfaces --enable-tftp "
               "--tftp-root={root} --quiet-tftp",
}


def is_installed(program: str) -> bool:
    return bool(shutil.which(program, path=PATH))


def command(client: str, verb: str, way: tuple[Any, Any], name: str, local: str, mode: str = "binary") -> list[str]:
    """A client gets a file of this name, or puts it: `way` is the host and the port, and `local` the file here."""
    text = CLIENTS[client][verb == "put"]
    return text.format(host=way[0], port=way[1], name=name, local=local, mode=mode).split()


def server(program: str, way: tuple[Any, Any], root: Any, user: str = "nobody", group: str = "nogroup") -> list[str]:
    """The words that serve a folder at this host and port."""
    words = SERVERS[os.path.basename(program)].format(host=way[0], port=way[1], root=root, user=user, group=group)
    return [str(shutil.which(program, path=PATH)), *words.split()]
