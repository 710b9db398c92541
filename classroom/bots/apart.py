"""Namespaces for a program under test. The program sees only its own processes, a loopback on which only its
server listens, and the files that it needs, which it can't change. No superuser rights are needed.

The files that the program writes are kept in memory, in a file system of limited size, and disappear with it.

A program in such namespaces is *kept apart*. The *host* is this machine outside the namespaces, whose files are visible
at the path HOST until the new root is complete. The program's *slip* is the file with the data to connect, and its
*keeper* is the process that enforces its limits. A `World` says what the program sees.
"""
from __future__ import annotations

import ctypes
import fcntl
import os
import signal
import socket
import struct
import sys
from dataclasses import dataclass
from pathlib import Path

# Of <linux/sched.h>: users, mounts, processes, messages, network.
NAMESPACES = 0x10000000 | 0x00020000 | 0x20000000 | 0x08000000 | 0x40000000
READ_ONLY, NO_SETUID, NO_DEVICES, NO_PROGRAMS, BIND, DEEP, PRIVATE = 1, 2, 4, 8, 1 << 12, 1 << 14, 1 << 18  # of <sys/mount.h>
DETACH, HERE, ALL_BELOW, MOUNT_SETATTR = 2, -100, 0x8000, 442
DEATH_SIGNAL, DROP_BOUND, NO_NEW_RIGHTS, AMBIENT, CLEAR_ALL = 1, 24, 38, 47, 4  # of <sys/prctl.h>
RIGHTS_VERSION, MOST_RIGHTS = 0x20080522, 64
SET_FLAGS, UP = 0x8914, 1  # the call that sets the flags of a network interface, and the flag that enables it
HOST = "/.host"  # the path at which the files of the host are visible until the program starts
DEVICES = ("null", "zero", "full", "random", "urandom")
LINKS = (("fd", "/proc/self/fd"), ("stdin", "/proc/self/fd/0"), ("stdout", "/proc/self/fd/1"), ("stderr", "/proc/self/fd/2"))
OF_KERNEL = ("sys", "sysrq-trigger", "irq", "bus", "fs")  # files and folders below /proc that the superuser could change
OWN = ("/tmp", "/dev/shm")  # folders that programs expect to write to
MOST_FILES = 16_384
SPARE = 16  # megabytes beyond the limit, so that the keeper notices when the limit is exceeded
LIBC = ctypes.CDLL(None, use_errno=True)


@dataclass(frozen=True)
class World:
    """The files and the server's port that a program sees if it is kept apart, and its slip, the file with the data to
    connect."""

    shown: tuple[tuple[str, str], ...]  # the files and folders that it can read: the path at which it sees each, and the path on the host
    hidden: tuple[str, ...]  # those of these paths at which the program sees an empty file or folder instead
    slip: str  # the text of its slip
    port: int  # the port of its server


def require_success(result: int, what: str) -> None:
    """Raises the `OSError` of the last system call if `result` is negative. `what` names the file or the call in the
    error."""
    if result < 0:
        number = ctypes.get_errno()
        raise OSError(number, os.strerror(number), what)


def mount(source: str, target: str, kind: str | None, flags: int, options: str = "") -> None:
    """Mounts the file system `source` of the type `kind` at the path `target`, with these flags and options of the
    system call `mount`. If `flags` has BIND, makes the file or folder `source` visible there instead, with the mounts
    below it if `flags` also has DEEP. If it has PRIVATE, mounts nothing, and keeps later mounts at `target` inside this
    namespace, and with DEEP also those below. Raises `OSError` if the system refuses the call."""
    words = [None if word is None else os.fsencode(word) for word in (source, target, kind)]
    require_success(LIBC.mount(*words, ctypes.c_ulong(flags), options.encode() or None), target)


def make_read_only(target: str) -> None:
    """Makes the mount at the path `target`, and all mounts below that path, read-only. Programs there can't get the
    rights of their files' owners (set-user-ID) either. Raises `OSError` if the system refuses the call."""
    wanted = struct.pack("4Q", READ_ONLY | NO_SETUID, 0, 0, 0)  # a `struct mount_attr`, whose first member has the flags to set
    require_success(LIBC.syscall(MOUNT_SETATTR, HERE, os.fsencode(target), ALL_BELOW, wanted, ctypes.c_size_t(len(wanted))), target)


def show(target: str, source: str) -> None:
    """Makes the host's file or folder `source` visible at the path `target`, read-only. Does nothing if `source`
    doesn't exist. Raises `OSError` if the system refuses a call."""
    if os.path.isdir(HOST + source):
        os.makedirs(target, exist_ok=True)
    elif os.path.exists(HOST + source):
        os.makedirs(os.path.dirname(target), exist_ok=True)
        with open(target, "xb"):
            pass  # An empty file is enough, but a file can be made visible only at a path that has one.
    else:
        return
    mount(HOST + source, target, None, BIND | DEEP)
    make_read_only(target)


def hide(target: str) -> None:
    """Covers the file or folder at the path `target` with an empty one. Does nothing if nothing is at this path. Raises
    `OSError` if the system refuses the call."""
    if os.path.isdir(target):
        mount("none", target, "tmpfs", READ_ONLY | NO_SETUID | NO_DEVICES, "size=4k")
    elif os.path.exists(target):
        mount("/dev/null", target, None, BIND)


def map_user(user: int, group: int) -> None:
    """Maps the user and the group with these numbers, and no others, into this process's user namespace. Forbids the
    call `setgroups` first, because otherwise the system refuses to map the group. Raises `OSError` if the system
    refuses a step."""
    for name, text in (("setgroups", "deny"), ("uid_map", f"{user} {user} 1"), ("gid_map", f"{group} {group} 1")):
        Path(f"/proc/self/{name}").write_text(text, encoding="ascii")


def enter_own_root(world: World, folder: str, megabytes: int) -> None:
    """Moves this process into a new root, a file system in memory with room for `megabytes` megabytes and SPARE more.
    The root contains the files that `world` shows and, at its path on the host, the program's folder with the slip. It
    also contains /proc, some devices and the folders in OWN. Files that `world` hides are covered by empty ones. Raises
    the `OSError` of a call that the system refuses."""
    mount("none", "/", None, DEEP | PRIVATE)  # From now on, mounts are visible only in this namespace.
    mount("none", folder, "tmpfs", NO_SETUID | NO_DEVICES, f"size={megabytes + SPARE}m,nr_inodes={MOST_FILES},mode=0755")
    os.chdir(folder)
    os.mkdir(HOST[1:])  # Relative, since this folder becomes the root only by the next call.
    require_success(LIBC.pivot_root(b".", os.fsencode(HOST[1:])), folder)
    os.chdir("/")
    for each in ("/proc", *OWN, folder):
        os.makedirs(each, exist_ok=True)
    for name in DEVICES:
        with open(f"/dev/{name}", "xb"):
            pass
        mount(f"{HOST}/dev/{name}", f"/dev/{name}", None, BIND)
    for name, target in LINKS:
        os.symlink(target, f"/dev/{name}")
    for target, source in world.shown:
        show(target, source)
    for each in world.hidden:
        hide(each)
    mount_own_processes()
    require_success(LIBC.umount2(os.fsencode(HOST), DETACH), HOST)
    os.rmdir(HOST)
    Path(folder, "bot.slip").write_text(world.slip, encoding="utf-8")
    os.chdir(folder)


def mount_own_processes() -> None:
    """Mounts /proc, so that it lists only the processes of this namespace. Forbids further namespaces, and makes the
    settings of the kernel read-only. Raises the `OSError` of a call that the system refuses."""
    mount("proc", "/proc", "proc", NO_SETUID | NO_DEVICES | NO_PROGRAMS)
    Path("/proc/sys/user/max_user_namespaces").write_text("0", encoding="ascii")
    for name in OF_KERNEL:
        if os.path.exists(f"/proc/{name}"):
            mount(f"/proc/{name}", f"/proc/{name}", None, BIND | DEEP)
            make_read_only(f"/proc/{name}")


def pass_listener(port: int, channel: int) -> None:
    """Enables this namespace's loopback, listens there on a port, and sends the listening socket through the Unix
    socket with the descriptor `channel`. Closes its own descriptors of both sockets. Raises `OSError` if that fails."""
    with socket.socket() as it:
        fcntl.ioctl(it, SET_FLAGS, struct.pack("16sh22x", b"lo", UP))  # a `struct ifreq`: the interface's name and flags
    with socket.socket(fileno=channel) as its, socket.create_server(("127.0.0.1", port), backlog=32) as listener:
        socket.send_fds(its, [b"."], [listener.fileno()])


def enter(world: World, folder: str, megabytes: int, channel: int) -> None:
    """Continues in a new process, the first one in new namespaces. When the new process ends, all other processes there
    end too. The calling process doesn't return: it waits for the new one, and exits with its status, or with 0 if a
    signal ended it. If the calling process is killed, the system kills the new one too. `folder` is the program's
    folder, and `megabytes` the size of the new root. A socket that listens at the port of `world` is sent through the
    descriptor `channel`. Raises the `OSError` of a call that the system refuses."""
    user, group = os.geteuid(), os.getegid()
    require_success(LIBC.unshare(NAMESPACES), "unshare")
    map_user(user, group)
    child = os.fork()
    if child:
        # Only the new process uses these two.
        sys.stdin.close()
        os.close(channel)
        os._exit(max(0, os.waitstatus_to_exitcode(os.waitpid(child, 0)[1])))
    LIBC.prctl(DEATH_SIGNAL, signal.SIGKILL, 0, 0, 0)
    enter_own_root(world, folder, megabytes)
    pass_listener(world.port, channel)


def drop_rights() -> None:
    """Drops the rights that the first process has in its namespaces, for this process and all that it starts. Raises
    `OSError` if the system refuses that."""
    for right in range(MOST_RIGHTS):
        LIBC.prctl(DROP_BOUND, right, 0, 0, 0)  # Fails without harm for a number that no right of this system has.
    LIBC.prctl(AMBIENT, CLEAR_ALL, 0, 0, 0)
    require_success(LIBC.capset(struct.pack("Ii", RIGHTS_VERSION, 0), bytes(24)), "capset")  # The 24 zero bytes are empty sets of rights.
    require_success(LIBC.prctl(NO_NEW_RIGHTS, 1, 0, 0, 0), "prctl")
