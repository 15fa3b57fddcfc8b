"""The units of systemd in deploy/."""

import contextlib
import glob
import os
import re
import shlex
import shutil
import socket
import subprocess
import tempfile
import time
import unittest
from typing import Dict, List, Set

from broker_tools import HERE, LATE, listens_at
from program import PROGRAM, needs_program, skip_module_in_process, vx
from feqyldan.broker import command_line as broker
from feqyldan.door import command_line as door
from feqyldan.door.loop import KILL_SECONDS
from feqyldan.door.starting import NICE
from feqyldan.service.listener import STATUS_NAME

skip_module_in_process("it is about the processes of systemd")

DEPLOY = os.path.realpath(os.path.join(HERE, "..", "..", "..", "deploy"))
SERVICES = {"feqyldan-door": door, "feqyldan-broker": broker}
MANAGER = "/lib/systemd/systemd"
# A user that no other program of this machine has.
USER = 61_358
# Where control groups of systemd may be.
GROUPS = ("/sys/fs/cgroup", "/sys/fs/cgroup/systemd", "/sys/fs/cgroup/unified")
# The greatest exposure level, of 10, that systemd-analyze may report for a service.
EXPOSURE = 2.0


def unit(name: str) -> Dict[str, List[str]]:
    """Returns the values of each key of a unit, in order."""
    found: Dict[str, List[str]] = {}
    with open(os.path.join(DEPLOY, name), encoding="utf-8") as file:
        for line in file:
            word, equals, value = line.partition("=")
            if equals and not line.startswith("#"):
                found.setdefault(word, []).append(value.strip())
    return found


def user_socket(name: str, path: str) -> str:
    """Returns the text of a socket unit for a user's manager, with another path."""
    with open(os.path.join(DEPLOY, name), encoding="utf-8") as file:
        text = re.sub("(?m)^Socket(User|Group)=.*\n", "", file.read())
    return text.replace("/run/feqyldan/socket", path)


# A service for each connection of feqyldan.socket.
SERVER = "[Service]\nExecStart=/bin/cat\nStandardInput=socket\nStandardOutput=socket\n"
needs_manager = unittest.skipIf(
    os.geteuid() or not os.path.exists(MANAGER) or not shutil.which("unshare"),
    "a manager of systemd in a mount namespace needs root, systemd and unshare")


class UserManager:
    """A user manager of systemd with these units, one of which it starts. It runs as a user of its
    own, in control groups of its own, and sees an empty /run, so it reaches nothing of the
    machine."""

    def __init__(self, folder: str, units: Dict[str, str], started: str) -> None:
        runtime, place = os.path.join(folder, "run"), os.path.join(folder, "config/systemd/user")
        os.makedirs(runtime, 0o700)
        os.makedirs(place)
        for name, text in units.items():
            with open(os.path.join(place, name), "w", encoding="utf-8") as file:
                file.write(text)
        self.groups = [self.own_group(path) for path in GROUPS
                       if os.path.exists(os.path.join(path, "cgroup.procs"))]
        for path in (folder, runtime):
            os.chown(path, USER, USER)
        environment = {"PATH": os.environ["PATH"], "HOME": folder, "XDG_RUNTIME_DIR": runtime,
                       "XDG_CONFIG_HOME": os.path.join(folder, "config")}
        enter = " && ".join(f"echo 0 > {group}/cgroup.procs" for group in self.groups)
        self.process = subprocess.Popen(
            ["sh", "-c", f'{enter} && exec unshare --mount --pid --fork --kill-child --mount-proc '
             'sh -c "$0"',
             "mount -t tmpfs tmpfs /run && mkdir -p /run/systemd/system && setpriv "
             f"--reuid={USER} --regid={USER} --clear-groups sh -c '{MANAGER} --user & "
             # With the first process of the namespace all others end.
             f"until systemctl --user start {started}; do sleep 0.1; done; wait'; exit"],
            env=environment, stdout=subprocess.DEVNULL, stderr=subprocess.DEVNULL)

    def own_group(self, parent: str) -> str:
        group = os.path.join(parent, f"feqyldan-test-{os.getpid()}")
        os.mkdir(group)
        for path in (group, *(entry.path for entry in os.scandir(group)
                              if entry.name in ("cgroup.procs", "cgroup.subtree_control"))):
            os.chown(path, USER, USER)
        return group

    def close(self) -> None:
        self.process.kill()
        self.process.wait()
        for group in self.groups:
            for folder, _, _ in os.walk(group, topdown=False):
                self.remove(folder)

    def remove(self, folder: str) -> None:
        """Removes a control group as soon as its processes have ended."""
        end = time.monotonic() + LATE
        while os.path.exists(folder) and time.monotonic() < end:
            with contextlib.suppress(OSError):
                os.rmdir(folder)
            time.sleep(0.01)


class Units(unittest.TestCase):
    def test_a_server_has_the_connection_to_itself(self) -> None:
        sockets, service = unit("feqyldan.socket"), unit("feqyldan@.service")
        self.assertEqual((sockets["Accept"], sockets["ListenStream"]),
                         (["yes"], ["/run/feqyldan/socket"]))
        # What it says must not be taken for replies.
        self.assertEqual([service[f"Standard{name}"] for name in ("Input", "Output", "Error")],
                         [["socket"], ["socket"], ["journal"]])
        # Where there is no limit on addresses the system kills a server in place of refusing.
        self.assertRegex(service["LimitAS"][0], r"^\d+G$")
        self.assertEqual(service["Slice"], ["feqyldan.slice"])
        self.assertIn("MemoryMax", unit("feqyldan.slice"))

    def test_servers_of_one_user_are_separate(self) -> None:
        service = unit("feqyldan@.service")
        self.assertEqual((service["User"], service["PrivateUsers"], service["ProtectProc"]),
                         (["feqyldan"], ["yes"], ["invisible"]))
        # Not even fcntl, which can have a signal sent. On aarch64 the loader calls faccessat.
        self.assertEqual(
            service["SystemCallFilter"],
            ["@default @basic-io",
             "access faccessat fstat madvise mremap newfstatat openat rt_sigaction statx",
             "~prlimit64"])
        self.assertEqual(service["SystemCallErrorNumber"], ["EPERM"])

    @unittest.skipUnless(shutil.which("systemd-analyze"), "systemd-analyze isn't there")
    def test_no_allowed_call_reaches_another_process(self) -> None:
        allowed = self.allowed_calls()
        self.assertIn("write", allowed)
        for name in ("kill", "tgkill", "rt_sigqueueinfo", "pidfd_send_signal", "fcntl", "ioctl",
                     "ptrace", "process_vm_readv", "prlimit64", "socket", "io_uring_setup"):
            self.assertNotIn(name, allowed)

    @needs_program
    @unittest.skipUnless(shutil.which("systemd-analyze"), "systemd-analyze isn't there")
    @unittest.skipUnless(shutil.which("strace"), "strace isn't there")
    def test_the_filter_allows_what_a_server_calls(self) -> None:
        with tempfile.TemporaryDirectory() as folder:
            trace = os.path.join(folder, "trace")
            with vx.Server(["strace", "-o", trace, PROGRAM]) as server, server.context() as context:
                for side in (1, 100, 4000):
                    image = context.image(vx.U8, side, side)
                    context.vxu.not_(image, context.image_like(image))
                    image.close()
            with open(trace, encoding="utf-8") as file:
                called = set(re.findall(r"^(\w+)\(", file.read(), re.M))
        self.assertIn("mmap", called)
        # Without prlimit64, the C library assumes the default size of stacks.
        self.assertLessEqual(called - {"prlimit64"}, self.allowed_calls())

    def allowed_calls(self) -> Set[str]:
        """Returns the system calls that a server of feqyldan.socket may use."""
        *allowed, excluded = unit("feqyldan@.service")["SystemCallFilter"]
        names = {name for line in allowed for name in line.split()}
        for group in [name for name in names if name.startswith("@")]:
            names |= self.calls_of(group)
        return names - set(excluded[1:].split())

    def calls_of(self, group: str) -> Set[str]:
        """Returns the system calls of a group, and of the groups in it."""
        names = {line.strip() for line in self.analyze("syscall-filter", group).splitlines()[1:]}
        for each in [name for name in names if name.startswith("@")]:
            names |= self.calls_of(each)
        return names

    def test_what_they_start_ends_in_time(self) -> None:
        for name, module in SERVICES.items():
            service, sockets = unit(f"{name}.service"), unit(f"{name}.socket")
            words = shlex.split(service["ExecStart"][0])
            told = module.parser().parse_args(words[words.index("-m") + 2 :])
            # Both sockets are handed over.
            self.assertEqual((told.socket, told.status), (None, None))
            self.assertEqual(sockets["ListenStream"], ["/run/feqyldan/socket"])
            self.assertEqual(service["Type"], ["notify"])
            self.assertLess(told.grace + KILL_SECONDS, float(service["TimeoutStopSec"][0]))
            # It is started again for as long as that takes, and no kill of a server ends it.
            self.assertEqual((service["StartLimitIntervalSec"], service["Restart"],
                              service["OOMPolicy"]), (["0"], ["on-failure"], ["continue"]))

    def test_the_status_has_a_socket_and_a_group_of_its_own(self) -> None:
        for name in SERVICES:
            status, sockets = unit(f"{name}-status.socket"), unit(f"{name}.socket")
            self.assertEqual((status["ListenStream"], status["FileDescriptorName"]),
                             (["/run/feqyldan/status"], [STATUS_NAME]))
            self.assertEqual(status["Service"], [f"{name}.service"])
            self.assertEqual((status["SocketMode"], status["SocketGroup"]),
                             (["0660"], ["feqyldan-status"]))
            self.assertEqual((sockets["SocketMode"], sockets["SocketGroup"]),
                             (["0660"], ["feqyldan"]))
            self.assertIn(f"{name}-status.socket", unit(f"{name}.service")["Requires"][0])

    def test_the_door_goes_before_its_servers(self) -> None:
        service = unit("feqyldan-door.service")
        self.assertEqual((service["Nice"], service["CPUWeight"]), ([str(NICE)], ["100"]))

    @unittest.skipUnless(shutil.which("systemd-analyze"), "systemd-analyze isn't there")
    def test_the_door_may_call_what_it_needs(self) -> None:
        allowed, excluded = unit("feqyldan-door.service")["SystemCallFilter"]
        calls = self.calls_of(allowed) - self.calls_of(excluded[1:])
        self.assertLessEqual({"setpriority", "prlimit64", "setsid", "execve"}, calls)
        # With these it reaches the process that starts the servers.
        self.assertLessEqual({"socketpair", "sendmsg", "recvmsg", "wait4", "kill"}, calls)

    def test_no_burst_stops_a_socket(self) -> None:
        for path in glob.glob(f"{DEPLOY}/*.socket"):
            self.assertEqual(unit(os.path.basename(path))["TriggerLimitIntervalSec"], ["0"], path)

    def test_two_are_not_at_one_path(self) -> None:
        self.assertEqual(unit("feqyldan-door.socket")["Conflicts"], ["feqyldan.socket"])
        self.assertEqual(unit("feqyldan-broker.socket")["Conflicts"],
                         ["feqyldan.socket feqyldan-door.socket"])
        self.assertEqual(unit("feqyldan-broker-status.socket")["Conflicts"],
                         ["feqyldan-door-status.socket"])
        for name in SERVICES:
            self.assertEqual(unit(f"{name}-status.socket")["PartOf"], [f"{name}.socket"])

    def test_no_core_has_pictures(self) -> None:
        for path in glob.glob(f"{DEPLOY}/*.service"):
            found = unit(os.path.basename(path))
            self.assertEqual((found["LimitCORE"], found["UMask"]), (["0"], ["0077"]), path)

    def test_no_server_writes_where_all_programs_can_read(self) -> None:
        for path in glob.glob(f"{DEPLOY}/*.service"):
            found = unit(os.path.basename(path))
            self.assertEqual((found["PrivateTmp"], found["InaccessiblePaths"]),
                             (["yes"], ["-/dev/shm -/dev/mqueue"]), path)

    @unittest.skipUnless(shutil.which("systemd-analyze"), "systemd-analyze isn't there")
    def test_systemd_finds_no_fault_with_them(self) -> None:
        with tempfile.TemporaryDirectory() as folder:
            paths = []
            for path in glob.glob(f"{DEPLOY}/*.s*"):
                if path.endswith((".service", ".socket", ".slice")):
                    paths.append(shutil.copy(path, folder))
            # Something that can be started is where they say.
            for path in paths:
                with open(path, encoding="utf-8") as file:
                    text = file.read().replace("/opt/feqyldan/bin/vx_main", "/bin/true")
                with open(path, "w", encoding="utf-8") as file:
                    file.write(text)
            said = self.analyze("verify", *paths)
            # It may speak of other units of this machine too.
            self.assertEqual([line for line in said.splitlines() if "feqyldan" in line], [])

    @unittest.skipUnless(shutil.which("systemd-analyze"), "systemd-analyze isn't there")
    def test_they_can_do_little(self) -> None:
        for path in glob.glob(f"{DEPLOY}/*.service"):
            said = self.analyze("security", "--offline=true", "--no-pager", path)
            level = re.search(r"Overall exposure level for \S+: ([\d.]+)", said)
            assert level is not None, said
            self.assertLessEqual(float(level[1]), EXPOSURE, said)

    @needs_manager
    def test_a_burst_of_connections_leaves_the_socket(self) -> None:
        with tempfile.TemporaryDirectory() as folder, contextlib.ExitStack() as ends:
            path = os.path.join(folder, "socket")
            manager = UserManager(folder, {
                "feqyldan.socket": user_socket("feqyldan.socket", path),
                "feqyldan@.service": SERVER}, "feqyldan.socket")
            ends.callback(manager.close)
            self.wait_for(path)
            for _ in range(1000):
                with socket.socket(socket.AF_UNIX) as sock:
                    sock.connect(path)
            for _ in range(5):
                self.assertTrue(self.is_served(path))

    @needs_manager
    def test_which_of_two_enabled_units_win_at_boot(self) -> None:
        """The broker's over the door's, and the door's over feqyldan.socket."""
        names = ["feqyldan.socket", "feqyldan-door.socket", "feqyldan-broker.socket"]
        services = {"feqyldan@.service": SERVER,
                    **{f"{name}.service": "[Service]\nExecStart=/bin/cat\n" for name in SERVICES}}
        for enabled in (names, names[:2]):
            with tempfile.TemporaryDirectory() as folder, contextlib.ExitStack() as ends:
                paths = {name: os.path.join(folder, name) for name in names}
                texts = {name: user_socket(name, path) for name, path in paths.items()}
                # The target of all sockets, as it is when they are enabled.
                wanted = f"[Unit]\nWants={' '.join(enabled)}\n"
                manager = UserManager(folder, {**texts, **services, "sockets.target": wanted},
                                      "default.target")
                ends.callback(manager.close)
                self.wait_for(*paths.values())
                time.sleep(0.5)
                self.assertEqual([name for name, path in paths.items() if os.path.exists(path)],
                                 enabled[-1:])

    def wait_for(self, *paths: str) -> None:
        """Waits until a manager of systemd listens at one of the paths."""
        end = time.monotonic() + LATE / 4
        while not any(map(listens_at, paths)) and time.monotonic() < end:
            time.sleep(0.01)
        if not any(map(listens_at, paths)):
            self.skipTest("no manager of systemd can be started here")

    def is_served(self, path: str) -> bool:
        """Returns whether a connection comes to be served in time. Those beyond MaxConnections are
        closed."""
        end = time.monotonic() + LATE
        while time.monotonic() < end:
            with socket.socket(socket.AF_UNIX) as sock, contextlib.suppress(BrokenPipeError,
                                                                            ConnectionResetError):
                sock.settimeout(LATE)
                sock.connect(path)
                sock.sendall(b"x")
                if sock.recv(1) == b"x":
                    return True
            time.sleep(0.1)
        return False

    def analyze(self, *words: str) -> str:
        run = subprocess.run(["systemd-analyze", *words], stdout=subprocess.PIPE,
                             stderr=subprocess.STDOUT, text=True, timeout=LATE, check=False)
        self.assertEqual(run.returncode, 0, run.stdout)
        return run.stdout


if __name__ == "__main__":
    unittest.main()
