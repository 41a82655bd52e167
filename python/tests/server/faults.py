"""Faults under a server: a library in C by which the disk is full, forcing fails, the clock jumps, or what was forced
can be told from what wasn't.

FAULT names what fails, `fsync` or `write`, and AFTER how many calls on the log of the journal JOURNAL before that;
CLOCK is by how many seconds the time of day is off, after AFTER looks at it. In the folder FORCED are the journal and
its log as they were when they were forced last, which takes SLOW microseconds: that is what a loss of power may leave.
"""
from __future__ import annotations

import shutil
from pathlib import Path

import preload  # of the folder tests at the top

SOURCE = """
#define _GNU_SOURCE
#include <errno.h>
#include <fcntl.h>
#include <stdio.h>
#include <stdlib.h>
#include <string.h>
#include <sys/stat.h>
#include <sys/syscall.h>
#include <sys/types.h>
#include <time.h>
#include <unistd.h>

static long calls, looks;

/* Whether a file is the journal, or with `-wal` behind that the log of it. */
static int is_it(int file, const char *behind) {
    const char *path = getenv("JOURNAL");
    char name[4096];
    struct stat one, it;
    if (!path) return 0;
    snprintf(name, sizeof name, "%s%s", path, behind);
    return !stat(name, &one) && !fstat(file, &it) && one.st_dev == it.st_dev && one.st_ino == it.st_ino;
}

/* Whether a call on a file is to fail: on the log of the journal, from the one of a number on. */
static int fails(const char *kind, int file) {
    const char *wanted = getenv("FAULT"), *after = getenv("AFTER");
    if (!wanted || !after || strcmp(wanted, kind) || !is_it(file, "-wal")) return 0;
    if (__atomic_add_fetch(&calls, 1, __ATOMIC_SEQ_CST) <= atol(after)) return 0;
    usleep(50000); /* as a disk that tries for a while */
    return 1;
}

/* Copies the journal or its log, which is being forced, to where a loss of power leaves it. */
static void kept(int file) {
    const char *folder = getenv("FORCED"), *slow = getenv("SLOW");
    char name[4096], part[4200], data[65536];
    ssize_t size;
    off_t at = 0;
    int copy;
    if (!folder || !slow) return;
    if (is_it(file, "-wal")) snprintf(name, sizeof name, "%s/log", folder);
    else if (is_it(file, "")) snprintf(name, sizeof name, "%s/journal", folder);
    else return;
    usleep(atol(slow)); /* as a disk that takes its time, in which a kill may come */
    snprintf(part, sizeof part, "%s.part", name);
    copy = open(part, O_WRONLY | O_CREAT | O_TRUNC | O_CLOEXEC, 0600);
    while ((size = pread(file, data, sizeof data, at)) > 0 && syscall(SYS_pwrite64, copy, data, size, at) == size)
        at += size;
    close(copy);
    if (!size) rename(part, name);
}

static int forced(int file, int call) {
    if (fails("fsync", file)) { errno = EIO; return -1; }
    kept(file);
    return syscall(call, file);
}

int fsync(int file) { return forced(file, SYS_fsync); }
int fdatasync(int file) { return forced(file, SYS_fdatasync); }

static ssize_t put(int file, const void *data, size_t size, off_t at) {
    if (fails("write", file)) { errno = ENOSPC; return -1; }
    return syscall(SYS_pwrite64, file, data, size, at);
}

ssize_t pwrite(int file, const void *data, size_t size, off_t at) { return put(file, data, size, at); }
ssize_t pwrite64(int file, const void *data, size_t size, off_t at) { return put(file, data, size, at); }

int clock_gettime(clockid_t clock, struct timespec *told) {
    const char *by = getenv("CLOCK"), *after = getenv("AFTER");
    int failed = syscall(SYS_clock_gettime, clock, told);
    if (!failed && by && after && clock == CLOCK_REALTIME)
        if (__atomic_add_fetch(&looks, 1, __ATOMIC_SEQ_CST) > atol(after)) told->tv_sec += atol(by);
    return failed;
}
"""


def library(folder: Path) -> str:
    """The path of the library, which is built."""
    return str(preload.built(SOURCE, str(folder), "faults"))


def failing(built: str, journal: Path, kind: str, after: int) -> dict[str, str]:
    """The variables with which calls on the log of a journal fail after some."""
    return {"LD_PRELOAD": built, "JOURNAL": str(journal), "FAULT": kind, "AFTER": str(after)}


def clock_off(built: str, by: int, after: int) -> dict[str, str]:
    """The variables with which the time of day jumps by some seconds after some looks at it."""
    return {"LD_PRELOAD": built, "CLOCK": str(by), "AFTER": str(after)}


LEFT = (("journal", ""), ("log", "-wal"))  # the names of what is forced, and what stands behind the journal's own


def forcing(built: str, journal: Path, folder: Path, slow: float) -> dict[str, str]:
    """The variables with which a folder has of a journal, that nobody writes now, what was forced to the disk, each
    time in some seconds."""
    shutil.rmtree(folder, ignore_errors=True)
    folder.mkdir()
    for name, behind in LEFT:
        if Path(f"{journal}{behind}").exists():
            shutil.copy(f"{journal}{behind}", folder / name)
    microseconds = str(int(slow * 1_000_000))
    return {"LD_PRELOAD": built, "JOURNAL": str(journal), "FORCED": str(folder), "SLOW": microseconds}


def lose_power(journal: Path, folder: Path) -> None:
    """Leaves of a journal that nobody has open what was forced to the disk."""
    for it in journal.parent.glob(f"{journal.name}-*"):
        it.unlink()
    for name, behind in LEFT:
        if (folder / name).exists():
            shutil.copy(folder / name, f"{journal}{behind}")
