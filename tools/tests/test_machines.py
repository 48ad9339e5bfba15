"""Tasks on other machines: GNU parallel over workers that this test starts, Slurm where its services start, and what is
believed of answers."""
from __future__ import annotations

import os
import shutil
import subprocess
import time
from collections.abc import Iterator
from dataclasses import replace
from pathlib import Path

import pytest

import workers
from conftest import TOP, Smv
from smv_tools.builds import build_of
from smv_tools.machines.archives import LOST, result_in
from smv_tools.machines.local import run_here
from smv_tools.machines.parallel_engine import host_of
from smv_tools.machines.plan import plan_of
from smv_tools.machines.tasks import MOST_NODES, Limits, Result, Task, with_more
from smv_tools.machines.trust import judge
from smv_tools.program import Program

PETERSON = str(TOP / "examples/peterson.smv")
MODELS = ["examples/peterson.smv", "examples/semaphore.smv", "examples/counter_bits.smv", "examples/kept_out.smv"]


@pytest.fixture(scope="session")
def tasks(program: Program) -> list[Task]:
    return plan_of(PETERSON, Limits(100_000), True, build_of(program).sha256).tasks


# ---- what is believed

def test_honest_answers_are_believed(program: Program, tasks: list[Task]) -> None:
    for task in tasks:
        result = run_here(program, task)
        assert result.proof and judge(program, task, result).result == result


def test_lies_are_caught(program: Program, tasks: list[Task]) -> None:
    true, false = run_here(program, tasks[0]), run_here(program, tasks[2])
    as_true = b"spec 1 line 17 true\ntotal 1 true 1 false 0 unknown 0\n"
    elsewhere = false.put.replace(b"left.state = idle", b"left.state = critical", 1)
    for task, result, told in (
        (tasks[2], replace(false, status=0, put=as_true), "its proof claims false"),
        (tasks[2], replace(false, status=0, put=as_true, proof=true.proof), "proof"),
        (tasks[2], replace(false, status=0, put=as_true, proof=b"spec 1 true\n"), "refused P1"),
        (tasks[2], replace(false, put=elsewhere), "its path is answered by trace 1 rejected initial"),
        (tasks[0], replace(true, put=true.put.replace(b"line 15", b"line 16")), "another text"),
        (tasks[0], replace(true, status=3, put=b"refused E8 line 3\n"), "answers with status 3, and this machine with 0"),
        (tasks[0], replace(true, put=b"anything"), "answers with status 0"),
        (tasks[0], replace(true, proof=run_here(program, tasks[1]).proof), "proof"),
    ):
        judged = judge(program, task, result)
        assert told in judged.caught and judged.result.report is None


def test_a_verdict_without_proof_is_found_here(program: Program, tasks: list[Task]) -> None:
    empty = b"smvproof 1\norder running turn left.state right.state\n"
    result = replace(run_here(program, tasks[2]), proof=empty)
    judged = judge(program, tasks[2], result)
    assert not judged.caught and judged.result.worker == "home" and judged.result.put == result.put


def test_archives_of_strangers(tmp_path: Path) -> None:
    path = tmp_path / "archive"
    for data in (b"", b"no archive", b"\x1f\x8b\x08\x00"):
        path.write_bytes(data)
        assert result_in(path, "w").status == LOST
    (tmp_path / "end").write_text("status over\nmilliseconds 1500\n")
    (tmp_path / "other").symlink_to("/etc/passwd")
    subprocess.run(["tar", "-czf", path, "end"], cwd=tmp_path, check=True)
    assert result_in(path, "w") == Result(None, b"", b"", 1.5, "w")
    subprocess.run(["tar", "-czf", path, "end", "other"], cwd=tmp_path, check=True)
    assert result_in(path, "w").status == LOST


def test_more(tasks: list[Task]) -> None:
    task = replace(tasks[0], limits=Limits(10, 5, 100))
    for status, limits in ((2, Limits(40, 5, 100)), (None, Limits(10, 20, 100)), (6, Limits(10, 5, 400)), (-9, Limits(10, 5, 100))):
        more = with_more(task, Result(status, b""), 4)
        assert more is not None and more.limits == limits and (more.key == task.key) == (limits == task.limits)
    assert with_more(task, Result(0, b""), 4) is None
    assert with_more(replace(task, limits=Limits(MOST_NODES)), Result(2, b""), 4) is None
    assert [host_of(it) for it in (":", "8/worker1", "ssh -p 22 root@worker1")] == [":", "worker1", "root@worker1"]


# ---- engines

def total_of(ended: subprocess.CompletedProcess[str]) -> str:
    return ended.stdout.splitlines()[-1].split(" seconds")[0] if ended.stdout else ended.stderr


@pytest.mark.skipif(bool(workers.missing()), reason=f"no {', '.join(workers.missing())}")
def test_parallel(smv: Smv, tmp_path: Path) -> None:
    names = ["worker1", "worker2"]
    with workers.workers(tmp_path, names, ["worker2"]) as environment:
        logins = [it for name in names for it in ("--sshlogin", name)]
        words = ["test", *MODELS, "--engine", "parallel", "--room", str(tmp_path / "room"), "--jobs", "1", "--seconds", "60"]
        ended = smv(*words, *logins, **environment)
        assert ended.returncode == 0 and total_of(ended) == "total 8 as expected 8 otherwise 0 labels 3"
        assert "worker1: " in ended.stderr and "tests of proofs and paths here" in ended.stderr
        if "worker2 answered falsely" not in ended.stderr:
            # The liar had true specifications alone.
            assert "worker2: " in ended.stderr
        again = smv(*words, *logins, **environment)
        assert again.returncode == 0 and "8 tasks were done already" in again.stderr
        alone = smv("test", "examples/counter_bits.smv", "--engine", "parallel", "--jobs", "1", "--sshlogin", "worker2", **environment)
        assert alone.returncode == 0 and "worker2 answered falsely 1 times" in alone.stderr and "home: 1 tasks" in alone.stderr


@pytest.mark.skipif(shutil.which("parallel") is None, reason="no GNU parallel")
def test_parallel_here(smv: Smv) -> None:
    ended = smv("test", *MODELS[:2], "--engine", "parallel", "--nodes", "100", "--retries", "5")
    assert ended.returncode == 0 and "tried again with more" in ended.stderr


def test_engines_and_words(smv: Smv, tmp_path: Path) -> None:
    for words, told in ((["--sshlogin", "w"], "--sshlogin goes with"), (["--partition", "p"], "--partition goes with"),
                        (["--engine", "slurm"], "--room FOLDER"), (["--engine", "other"], "one of local, parallel, slurm"),
                        (["--retries", "x"], "--retries takes one of")):
        ended = smv("test", MODELS[0], *words)
        assert ended.returncode == 5 and told in ended.stderr and ended.stdout == ""


SLURM = ("munged", "slurmctld", "slurmd", "sbatch", "sinfo")
CONFIG = """ClusterName=test
SlurmctldHost={host}(127.0.0.1)
SlurmctldPort={ports[0]}
SlurmUser={user}
SlurmdUser={user}
AuthType=auth/munge
AuthInfo=socket={room}/munge
CryptoType=crypto/munge
StateSaveLocation={room}/state
SlurmdSpoolDir={room}/spool-%n
SlurmctldPidFile={room}/slurmctld.pid
SlurmdPidFile={room}/slurmd-%n.pid
SlurmctldLogFile={room}/slurmctld.log
SlurmdLogFile={room}/slurmd-%n.log
ProctrackType=proctrack/linuxproc
TaskPlugin=task/none
MpiDefault=none
SelectType=select/cons_tres
SelectTypeParameters=CR_Core
ReturnToService=2
NodeName=worker1 NodeHostname={host} NodeAddr=127.0.0.1 Port={ports[1]} CPUs=1
NodeName=worker2 NodeHostname={host} NodeAddr=127.0.0.1 Port={ports[2]} CPUs=1
PartitionName=all Nodes=ALL Default=YES MaxTime=INFINITE State=UP
"""


def idle(environment: dict[str, str]) -> bool:
    words = ["timeout", "5", "sinfo", "--noheader", "--format", "%T %D"]
    return subprocess.run(words, env=environment, capture_output=True, text=True).stdout.split() == ["idle", "2"]


@pytest.fixture
def slurm(tmp_path: Path) -> Iterator[dict[str, str]]:
    """A Slurm of two nodes on this machine; the test is skipped where its services don't start."""
    if any(shutil.which(name) is None for name in SLURM) or os.geteuid() != 0:
        pytest.skip(f"no {', '.join(SLURM)}, or no leave to start them")
    host, key = os.uname().nodename, tmp_path / "key"
    key.write_bytes(os.urandom(128))
    key.chmod(0o400)
    ports = [workers.free_port() for _ in range(3)]
    (tmp_path / "slurm.conf").write_text(CONFIG.format(host=host, ports=ports, room=tmp_path, user="root"))
    environment = {**os.environ, "SLURM_CONF": str(tmp_path / "slurm.conf")}
    munged = ["munged", "--force", "--foreground", f"--key-file={key}", f"--socket={tmp_path}/munge", f"--pid-file={tmp_path}/pid",
              f"--seed-file={tmp_path}/seed", f"--log-file={tmp_path}/log"]
    services = [munged, ["slurmctld", "-D"], ["slurmd", "-D", "-N", "worker1"], ["slurmd", "-D", "-N", "worker2"]]
    running = []
    with (tmp_path / "told").open("wb") as told:
        for words in services:
            running.append(subprocess.Popen(words, env=environment, stdin=subprocess.DEVNULL, stdout=told, stderr=told))
            time.sleep(1)
    try:
        for _ in range(30):
            if idle(environment):
                break
            time.sleep(1)
        else:
            pytest.skip("the services of Slurm don't start here")
        yield {"SLURM_CONF": environment["SLURM_CONF"]}
    finally:
        for service in reversed(running):
            service.terminate()
            service.wait(30)


def test_slurm(smv: Smv, slurm: dict[str, str], tmp_path: Path) -> None:
    words = ["test", *MODELS, "--engine", "slurm", "--room", str(tmp_path / "room"), "--seconds", "60"]
    ended = smv(*words, **slurm)
    assert ended.returncode == 0 and total_of(ended) == "total 8 as expected 8 otherwise 0 labels 3"
    assert "worker1: " in ended.stderr and "worker2: " in ended.stderr
    assert "8 tasks were done already" in smv(*words, **slurm).stderr
