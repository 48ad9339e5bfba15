"""Workers for GNU parallel on this machine: servers of ssh that listen on it alone, each with a folder of its own.

A worker that lies says that each specification is true, in its report and in the head of its proofs."""
from __future__ import annotations

import os
import shlex
import shutil
import socket
import subprocess
import time
from collections.abc import Iterator, Sequence
from contextlib import contextmanager
from pathlib import Path

SERVER = shutil.which("sshd") or "/usr/sbin/sshd"
NEEDED = (SERVER, "ssh", "ssh-keygen", "rsync", "parallel")
WAIT_SECONDS = 20
WORKER = """#!/bin/sh
export HOME={home} PATH={home}/bin:$PATH
cd "$HOME" && exec sh -c "$SSH_ORIGINAL_COMMAND"
"""
# It stands in place of `tar`, which packs what a task put.
LIAR = """#!/bin/sh
if [ -e put ]; then
  awk '/^spec / { sub("false", "true"); n++; print } END { print "total " n " true " n " false 0 unknown 0" }' put >lie
  mv lie put
  sed -i 's/^spec \\([0-9]*\\) false/spec \\1 true/; /^at /d' proof
  sed -i 's/^status 1/status 0/' end
fi
exec /usr/bin/tar "$@"
"""
SERVER_CONFIG = """Port {port}
ListenAddress 127.0.0.1
HostKey {room}/host_key
AuthorizedKeysFile {room}/key.pub
PidFile none
StrictModes no
UsePAM no
PasswordAuthentication no
KbdInteractiveAuthentication no
PermitRootLogin prohibit-password
MaxStartups 100
ForceCommand {command}
"""
CLIENT_CONFIG = """Host {name}
  HostName 127.0.0.1
  Port {port}
  IdentityFile {room}/key
  IdentitiesOnly yes
  StrictHostKeyChecking no
  UserKnownHostsFile /dev/null
  LogLevel ERROR
  ControlMaster auto
  ControlPath {room}/%C
  ControlPersist 60
"""


def missing() -> list[str]:
    """The programs that aren't there."""
    return [name for name in NEEDED if shutil.which(name) is None]


def free_port() -> int:
    with socket.socket() as it:
        it.bind(("127.0.0.1", 0))
        port: int = it.getsockname()[1]
        return port


def answers(port: int) -> bool:
    with socket.socket() as it:
        return it.connect_ex(("127.0.0.1", port)) == 0


def worker_script(room: Path, name: str, lies: bool) -> Path:
    home, script = room / name, room / f"{name}.sh"
    (home / "bin").mkdir(parents=True)
    if lies:
        tar = home / "bin" / "tar"
        tar.write_text(LIAR)
        tar.chmod(0o755)
    script.write_text(WORKER.format(home=shlex.quote(str(home))))
    script.chmod(0o755)
    return script


def start(room: Path, name: str, port: int, lies: bool) -> subprocess.Popen[bytes]:
    command = worker_script(room, name, lies)
    config = room / f"{name}.config"
    config.write_text(SERVER_CONFIG.format(port=port, room=room, command=command))
    return subprocess.Popen([SERVER, "-D", "-f", str(config), "-E", str(room / f"{name}.log")], stdin=subprocess.DEVNULL)


@contextmanager
def workers(room: Path, names: Sequence[str], liars: Sequence[str] = ()) -> Iterator[dict[str, str]]:
    """Starts the workers; the value is what the environment of a call needs to reach them by their names."""
    for key in ("host_key", "key"):
        subprocess.run(["ssh-keygen", "-q", "-t", "ed25519", "-N", "", "-f", str(room / key)], check=True)
    if os.geteuid() == 0:
        Path("/run/sshd").mkdir(exist_ok=True)
    ports = {name: free_port() for name in names}
    client = room / "client.config"
    client.write_text("".join(CLIENT_CONFIG.format(name=name, port=port, room=room) for name, port in ports.items()))
    servers = [start(room, name, port, name in liars) for name, port in ports.items()]
    try:
        begun = time.monotonic()
        while not all(map(answers, ports.values())):
            if time.monotonic() - begun > WAIT_SECONDS:
                raise OSError("the servers of ssh don't answer")
            time.sleep(0.1)
        yield {"PARALLEL_SSH": f"ssh -F {client}"}
    finally:
        for name in names:
            subprocess.run(["ssh", "-F", str(client), "-O", "exit", name], capture_output=True)
        for server in servers:
            server.terminate()
            server.wait()
