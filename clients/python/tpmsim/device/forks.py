"""What a forked child must not share with its parent. A fork takes place while other threads are
anywhere, and nothing here makes it wait for them.
"""

import contextlib
import functools
import io
import os
import weakref
from typing import Callable

# One entry for each fork between the first process of this program and this one.
FORKS: list[None] = []

# `partial` and `append` are written in C, so no signal handler can run during this call.
os.register_at_fork(after_in_child=functools.partial(FORKS.append, None))

# The paths of lock files, by the devices that use them. A path is here before its file is opened.
LOCKS: weakref.WeakKeyDictionary[object, str] = weakref.WeakKeyDictionary()

Inode = tuple[int, int]


def process() -> tuple[int, int]:
    """Returns what identifies this process among its parents and children. A child in another
    namespace may have its parent's number. A library in C may fork without calling Python.
    """
    return os.getpid(), len(FORKS)


def inode(status: os.stat_result) -> Inode:
    """Returns what identifies a file."""
    return status.st_dev, status.st_ino


def in_each_child(act: Callable[[], None]) -> None:
    """Registers an action for forked children. Each child runs it twice, because a signal handler
    may raise an exception during a run.
    """
    os.register_at_fork(after_in_child=act)
    os.register_at_fork(after_in_child=act)


def leave_locks() -> None:
    """Replaces each descriptor of a lock file by one of an empty file. Otherwise a forked child
    would share the open files of its parent, with their locks: if the parent were killed while it
    holds a lock, the child would hold it too. Every owner of such a descriptor opens the lock file
    again in a child, or refuses to be used there.
    """
    locks = {inode_at(it) for it in list(LOCKS.values())}
    if locks:
        with contextlib.suppress(OSError), io.FileIO(os.devnull) as empty:
            for number in map(int, os.listdir("/proc/self/fd")):
                replace(number, locks, empty.fileno())


def inode_at(path: str) -> Inode | None:
    """Returns what identifies the file at a path, or None if there is no file."""
    try:
        return inode(os.lstat(path))
    except OSError:
        return None


def replace(number: int, files: set[Inode | None], other: int) -> None:
    """Replaces a descriptor by another one if it is one of these files."""
    try:
        if inode(os.fstat(number)) in files:
            os.dup2(other, number, inheritable=False)
    except OSError:
        pass  # the descriptor that listed the folder is closed


in_each_child(leave_locks)
