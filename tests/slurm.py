#!/usr/bin/env python3
"""Runs the tree of sample/slurm/ on a Slurm of three nodes, which are daemons of this machine, and compares each cut with that of the whole town.

usage: tests/slurm.py PROGRAM

A list whose box is wrong ends the levels below it, and the same command with the right list makes the rest and leaves alone what is there. Then one node
dies within a cut, and on another a cut fails: both are tried again, and the tree ends whole. All daemons run as the user of the test, in a temporary folder,
at ports that are free, and end with it. Without Slurm (Debian's slurm-wlm), or if it can't be run here, the test has nothing to run, and its status is 77.
"""

import ctypes
import os
import pwd
import random
import shutil
import signal
import socket
import subprocess
import sys
import tempfile
import time

TOP = os.path.dirname(os.path.dirname(os.path.abspath(__file__)))
SAMPLE = os.path.join(TOP, "sample", "slurm")
LEVELS = ["level-1", "level-2", "level-3"]
NODES = ["n1", "n2", "n3"]
NEEDED = ["awk", "bash", "munged", "paste", "sbatch", "scontrol", "sinfo", "slurmctld", "slurmd", "squeue"]
NOTHING_TO_RUN = 77
# for the whole test, with what it takes to end the daemons
SECONDS = 170
STOPPED_BY = [signal.SIGALRM, signal.SIGTERM, signal.SIGHUP]
PATH = os.pathsep.join([os.environ.get("PATH", ""), "/usr/local/sbin", "/usr/sbin", "/sbin"])

CONFIGURATION = """ClusterName=test
SlurmctldHost={host}(127.0.0.1)
SlurmctldPort={port}
AuthType=auth/munge
AuthInfo=socket={folder}/munge.socket
SlurmUser={user}
SlurmdUser={user}
StateSaveLocation={folder}/state
SlurmdSpoolDir={folder}/%n
SlurmctldPidFile={folder}/slurmctld.pid
SlurmdPidFile={folder}/%n.pid
ProctrackType=proctrack/linuxproc
TaskPlugin=task/none
JobAcctGatherType=jobacct_gather/none
MpiDefault=none
MailProg=/bin/true
SelectType=select/cons_tres
SelectTypeParameters=CR_Core
SlurmdTimeout=5
PartitionName=all Nodes=ALL Default=YES MaxTime=INFINITE State=UP
"""
NODE = "NodeName={name} NodeAddr=127.0.0.1 NodeHostname={host} Port={port} CPUs=1 State=UNKNOWN\n"

# Stands for pbfcutz on the nodes. It notes each run; the first over `region` stops within its work, since nobody reads what it says of its progress, and
# the first over `south` fails.
TROUBLE = """#!/bin/bash
for name; do :; done
echo "$name ${{SLURM_RESTART_COUNT:-0}} $SLURMD_NODENAME $$" >>runs
case $name,${{SLURM_RESTART_COUNT:-0}} in
region.osm.pbf,0) mkfifo bin/full && exec 9<>bin/full && head -c 65536 /dev/zero >&9 && exec {program} "$1" --progress "${{@:2}}" 2>&9 ;;
south.osm.pbf,0) exit 3 ;;
esac
exec {program} "$@"
"""


class Failure(Exception):
    """What the test found."""


class Unable(Exception):
    """Why there is nothing to run here."""


def require(condition, what: str):
    if not condition:
        raise Failure(what)


def contents(path: str) -> bytes:
    with open(path, "rb") as file:
        return file.read()


def write(path: str, text: str, mode: int = 0o644):
    with open(path, "w", encoding="utf-8") as file:
        file.write(text)
    os.chmod(path, mode)


def tail(path: str) -> str:
    return "".join(contents(path).decode(errors="replace").splitlines(True)[-20:])


# ---- processes

SYSTEM = ctypes.CDLL(None)
PR_SET_PDEATHSIG, PR_SET_CHILD_SUBREAPER = 1, 36


def parents() -> dict:
    """The parent of each process."""
    found = {}
    for name in filter(str.isdigit, os.listdir("/proc")):
        try:
            found[int(name)] = int(contents(f"/proc/{name}/stat").rpartition(b") ")[2].split()[1])
        except (OSError, IndexError):
            pass  # it has ended
    return found


def below(process: int) -> list:
    """The processes that this one started, and those that they did."""
    found, every = [process], parents()
    for one in found:
        found += [child for child, parent in every.items() if parent == one]
    return found[1:]


def kill(processes: list):
    for process in processes:
        try:
            os.kill(process, signal.SIGKILL)
        except ProcessLookupError:
            pass


def adopt_orphans():
    """Makes this process the parent of what its daemons leave, so that it finds all of them."""
    if SYSTEM.prctl(PR_SET_CHILD_SUBREAPER, 1, 0, 0, 0):
        raise Unable("the system has no prctl of this kind")


def end_all(daemons: list):
    """Ends everything that was started here; it may start more until the last daemon has ended."""
    for daemon in reversed(daemons):
        daemon.terminate()
    until = time.monotonic() + 3
    while time.monotonic() < until and any(daemon.poll() is None for daemon in daemons):
        time.sleep(0.05)
    while left := below(os.getpid()):
        kill(left)
        try:
            os.waitpid(-1, 0)
        except ChildProcessError:
            break


# ---- a cluster


def free_ports(count: int) -> list:
    """Ports that nobody listens at, below those that connections take by themselves."""
    found = []
    for port in random.sample(range(20000, 32000), 1000):
        with socket.socket() as one:
            try:
                one.bind(("", port))
                found.append(port)
            except OSError:
                continue
        if len(found) == count:
            return found
    raise Unable("there are no free ports")


class Cluster:
    """munged, slurmctld and three slurmd; `daemons` has all that was started, also by a cluster that doesn't come up."""

    def __init__(self, folder: str, daemons: list):
        self.folder, self.daemons, self.nodes = folder, daemons, {}
        self.environment = {"PATH": PATH, "SLURM_CONF": os.path.join(folder, "slurm.conf"), "LC_ALL": "C"}
        host, ports = socket.gethostname().partition(".")[0], free_ports(1 + len(NODES))
        for name in ["state", *NODES]:
            os.mkdir(os.path.join(folder, name))
        text = CONFIGURATION.format(host=host, user=pwd.getpwuid(os.getuid()).pw_name, port=ports[0], folder=folder)
        write(self.environment["SLURM_CONF"], text + "".join(NODE.format(name=name, host=host, port=port) for name, port in zip(NODES, ports[1:])))
        with open(os.path.join(folder, "munge.key"), "wb") as key:
            os.chmod(key.name, 0o600)
            key.write(os.urandom(128))

    def start(self, name: str, words: list) -> subprocess.Popen:
        with open(os.path.join(self.folder, name + ".log"), "wb") as log:
            # it ends with the test, even if somebody kills that
            daemon = subprocess.Popen(words, cwd=self.folder, env=self.environment, stdin=subprocess.DEVNULL, stdout=log, stderr=log,
                                      preexec_fn=lambda: SYSTEM.prctl(PR_SET_PDEATHSIG, signal.SIGKILL, 0, 0, 0))
        self.daemons.append(daemon)
        return daemon

    def start_all(self):
        place = {word: os.path.join(self.folder, "munge." + word) for word in ("key", "socket", "pid", "seed", "log")}
        files = [f"--{option}={place[word]}" for option, word in
                 [("key-file", "key"), ("socket", "socket"), ("pid-file", "pid"), ("seed-file", "seed"), ("log-file", "log")]]
        munged = self.start("munged", ["munged", "--foreground", "--force", *files])
        self.wait("munged has no socket", lambda: os.path.exists(place["socket"]) or munged.poll() is not None, 10)
        self.start("slurmctld", ["slurmctld", "-D"])
        self.nodes = {name: self.start(name, ["slurmd", "-D", "-N", name]) for name in NODES}
        self.wait("the nodes don't come up", lambda: self.states() == {name: "idle" for name in NODES} or self.lost(), 30)
        if self.lost():
            raise Unable("a daemon ended at once")

    def lost(self) -> bool:
        return any(daemon.poll() is not None for daemon in self.daemons)

    def logs(self) -> str:
        names = [name for name in ["munged", "slurmctld", *NODES] if os.path.exists(os.path.join(self.folder, name + ".log"))]
        return "".join(f"--- {name}\n{tail(os.path.join(self.folder, name + '.log'))}" for name in names)

    def wait(self, what: str, condition, seconds: int):
        until = time.monotonic() + seconds
        while not condition():
            require(time.monotonic() < until, f"after {seconds} seconds {what}")
            time.sleep(0.1)

    def wait_for_end(self, what: str, seconds: int = 100, is_hurried: bool = False):
        """Waits until nothing is in the queue. Tasks that are tried again wait two minutes; if it is hurried, they needn't."""
        until, started = time.monotonic() + seconds, set()
        while left := self.jobs():
            require(time.monotonic() < until, f"{what}: after {seconds} seconds there are {left}")
            waiting = {f"{job}_{task}" for job, task, state, restarts in left if state == "PENDING" and restarts != "0"} - started
            for task in waiting if is_hurried else ():
                self.run("scontrol", "update", f"JobId={task}", "StartTime=now")
                started.add(task)
            time.sleep(0.1)

    def run(self, *words, folder: str = TOP, path: str = PATH, **variables) -> str:
        done = subprocess.run(words, cwd=folder, env={**self.environment, "PATH": path, **variables}, stdin=subprocess.DEVNULL,
                              stdout=subprocess.PIPE, stderr=subprocess.STDOUT, text=True, timeout=60, check=False)
        require(done.returncode == 0, f"'{' '.join(words)}' ends with {done.returncode}: {done.stdout}")
        return done.stdout

    def states(self) -> dict:
        """The state of each node, once the controller knows it."""
        done = subprocess.run(["sinfo", "-h", "-N", "-o", "%N %T"], env=self.environment, capture_output=True, text=True, timeout=60, check=False)
        return dict(line.split() for line in done.stdout.splitlines())

    def jobs(self) -> list:
        """What waits or runs: the number of each task, its state and how often it was started again."""
        return [line.split() for line in self.run("squeue", "-h", "-r", "-O", "ArrayJobID:20,ArrayTaskID:20,State:20,RestartCnt:20").splitlines()]

    def kill_node(self, name: str, process: int):
        """Kills a node's daemon, and the task with this process."""
        every = parents()
        while process in every and not contents(f"/proc/{process}/cmdline").startswith(b"slurmstepd"):
            process = every[process]
        require(process in every, f"the task on {name} has ended too early")
        kill([self.nodes[name].pid, process, *below(process)])
        self.daemons.remove(self.nodes[name])
        self.nodes.pop(name).wait()


# ---- a tree


class Tree:
    """The folder of a tree on the cluster, with the lists of the sample."""

    def __init__(self, cluster: Cluster, program: str, folder: str):
        self.cluster, self.program, self.folder = cluster, program, folder
        os.mkdir(folder)
        os.mkdir(self.file("bin"))
        for name in LEVELS:
            shutil.copy(os.path.join(SAMPLE, name), folder)
        shutil.copy(os.path.join(TOP, "sample", "town.osm.pbf"), self.file("planet.osm.pbf"))

    def file(self, name: str) -> str:
        return os.path.join(self.folder, name)

    def listed(self, level: str) -> list:
        """The lines of a list: a parent, a name and a box."""
        return [line.split() for line in contents(self.file(level)).decode().splitlines()]

    def submit(self) -> str:
        """Submits all levels, and returns what that prints: the job and the tasks of each."""
        path = os.pathsep.join([self.file("bin"), PATH])
        return self.cluster.run("bash", os.path.join(SAMPLE, "tree.sh"), *LEVELS, folder=self.folder, path=path)

    def parts(self) -> list:
        """What runs make before cuts get their names."""
        return sorted(name for name in os.listdir(self.folder) if name.endswith(".part"))

    def cuts(self) -> dict:
        """The time and the number of each cut that is there."""
        found = {name: os.stat(self.file(name)) for name in os.listdir(self.folder) if name.endswith(".osm.pbf")}
        return {name: (told.st_ino, told.st_mtime_ns) for name, told in found.items()}

    def said(self) -> str:
        return "".join(f"{name}: {contents(self.file(name)).decode()}" for name in sorted(os.listdir(self.folder)) if name.endswith(".out"))

    def compare(self, name: str, box: str):
        direct = os.path.join(self.file("bin"), "direct.osm.pbf")
        self.cluster.run(self.program, "extract", f"--box={box}", self.file("planet.osm.pbf"), direct)
        require(os.path.exists(self.file(name + ".osm.pbf")), f"{name} is missing: {self.said()}")
        require(contents(direct) == contents(self.file(name + ".osm.pbf")), f"{name} isn't what is cut out of the whole town")
        os.remove(direct)

    def is_whole(self):
        """Each cut of each list is there, and nothing else beside what the jobs print."""
        lines = [line for level in LEVELS for line in self.listed(level)]
        for _, name, box in lines:
            self.compare(name, box)
        meant = {"bin", "planet.osm.pbf", *LEVELS, *(f"{name}.osm.pbf" for _, name, _ in lines)}
        others = {name for name in os.listdir(self.folder) if not name.endswith(".out")} - meant - {"runs"}
        require(not others, f"the folder also has {', '.join(sorted(others))}")
        return len(lines)


def faulty_list(cluster: Cluster, program: str, folder: str) -> int:
    """A box that can't be ends the level below it. The same command with the right box makes what is missing, and nothing else."""
    tree = Tree(cluster, program, folder)
    os.symlink(program, os.path.join(tree.file("bin"), "pbfcutz"))
    right = contents(tree.file("level-2")).decode()
    write(tree.file("level-2"), right.replace("10.002,", "10.02,"))
    tree.submit()
    cluster.wait_for_end("a tree with a wrong box")
    there = tree.cuts()
    names = {name[:-len(".osm.pbf")] for name in there}
    require(names == {"planet", "region", "south", "town", "west"}, f"with a wrong box there are {sorted(names)}: {tree.said()}")
    write(tree.file("level-2"), right)
    os.remove(tree.file("west.osm.pbf"))
    tasks = tree.submit()
    cluster.wait_for_end("the same tree with the right one")
    count = tree.is_whole()
    again = tree.cuts()
    require(all(again[name] == there[name] for name in there if name != "west.osm.pbf"), "a cut that was there was made again")
    require([line.rsplit(", ")[1] for line in tasks.splitlines()] == ["1 tasks", "2 tasks", "2 tasks"], f"other tasks: {tasks}")
    return count


def runs(tree: Tree) -> list:
    """The runs of pbfcutz so far: what was cut, how often its task was started again, the node, and the process."""
    return [line.split() for line in contents(tree.file("runs")).decode().splitlines()] if os.path.exists(tree.file("runs")) else []


def dying_node(cluster: Cluster, program: str, folder: str) -> int:
    """A node dies within a cut, and another cut fails: each is tried again, the first on another node."""
    tree = Tree(cluster, program, folder)
    write(os.path.join(tree.file("bin"), "pbfcutz"), TROUBLE.format(program=program), 0o755)
    tree.submit()
    cluster.wait("not both cuts of the second level were begun",
                 lambda: {name for name, *_ in runs(tree)} >= {"region.osm.pbf", "south.osm.pbf"} and len(tree.parts()) == 2, 30)
    (node, process), = [(node, int(process)) for name, _, node, process in runs(tree) if name == "region.osm.pbf"]
    cluster.kill_node(node, process)
    require([name.partition(".")[0] for name in tree.parts()] == ["town", "west"], f"the run that died had made {tree.parts()}")
    require(not {"town.osm.pbf", "west.osm.pbf"} & set(tree.cuts()), "a cut of the run that died has its name")
    cluster.wait_for_end("a tree with a dead node", is_hurried=True)
    count = tree.is_whole()
    parents_of = {parent for level in LEVELS for parent, _, _ in tree.listed(level)}
    meant = sorted([(f"{parent}.osm.pbf", "0") for parent in parents_of] + [("region.osm.pbf", "1"), ("south.osm.pbf", "1")])
    done = sorted((name, restarts) for name, restarts, _, _ in runs(tree))
    require(done == meant, f"the runs aren't one for each parent, and one more for those that failed: {runs(tree)}")
    require(all(where != node for name, restarts, where, _ in runs(tree) if (name, restarts) == ("region.osm.pbf", "1")), "a dead node has cut")
    require(cluster.states()[node].startswith("down"), f"the dead node is {cluster.states()[node]}")
    return count


def bring_up(folder: str, daemons: list) -> Cluster:
    """Somebody may take a port between the look for it and its use, so that the first try fails."""
    for last in (False, True):
        place = os.path.join(folder, f"cluster{int(last)}")
        os.mkdir(place)
        cluster = Cluster(place, daemons)
        try:
            cluster.start_all()
            return cluster
        except (Failure, Unable) as reason:
            if last:
                raise Unable(f"Slurm can't be run here: {reason}\n{cluster.logs()}") from reason
            end_all(daemons)
            daemons.clear()
    raise AssertionError


def test(program: str) -> str:
    lacking = [name for name in NEEDED if not shutil.which(name, path=PATH)]
    if lacking:
        raise Unable(f"{', '.join(lacking)} isn't installed")
    adopt_orphans()
    daemons = []
    folder = tempfile.mkdtemp(prefix="pbfcut-slurm-")
    try:
        os.chmod(folder, 0o755)
        pbfcutz = os.path.join(folder, "pbfcutz")
        os.symlink(program, pbfcutz)
        cluster = bring_up(folder, daemons)
        try:
            count = faulty_list(cluster, pbfcutz, os.path.join(folder, "faulty")) + dying_node(cluster, pbfcutz, os.path.join(folder, "dying"))
        except Failure as reason:
            raise Failure(f"{reason}\n{cluster.logs()}") from reason
        return f"{count} cuts by Slurm are the cuts of the whole town, also when a node dies"
    finally:
        for number in STOPPED_BY:
            signal.signal(number, signal.SIG_IGN)
        end_all(daemons)
        shutil.rmtree(folder, ignore_errors=True)


def give_up(number: int, _frame):
    raise Failure(f"no end after {SECONDS} seconds" if number == signal.SIGALRM else "it was stopped")


def main():
    if len(sys.argv) != 2 or not os.access(sys.argv[1], os.X_OK):
        sys.exit(__doc__)
    for number in STOPPED_BY:
        signal.signal(number, give_up)
    signal.alarm(SECONDS)
    try:
        print(f"tests/slurm.py: {test(os.path.abspath(sys.argv[1]))}")
    except Unable as reason:
        first, _, more = str(reason).partition("\n")
        print(f"{more}tests/slurm.py: skipped: {first}")
        sys.exit(NOTHING_TO_RUN)
    except Failure as reason:
        sys.exit(f"tests/slurm.py: {reason}")


if __name__ == "__main__":
    main()
