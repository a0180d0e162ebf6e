#!/usr/bin/env bash
# Tries the programs with refused memory and failing devices, and prints the table of docs/FAULTS.md.
# usage: docs/faults.sh FOLDER [EXAMPLE ..]
# FOLDER holds the two programs, or is the top of a repository that has built them. It needs gcc and python3.
#
# The runs are a plain year, one that has no table, one under edits, the small whole economy, and checks of what they wrote.
# Refused memory: each allocation in turn, alone and with all later ones.
# Failing devices: each call of open, read, write, close, rename, fsync, unlink, statx and fchmod in turn: an error, an
# interrupt, a file that isn't there, a short or an empty transfer, a half write with a full disk, and a kill before a call and
# within a write. What a run must then leave stands in `is_right` and `is_right_after_kill`.
set -eu
folder=$(cd "${1:-$(dirname "$0")/..}" && pwd)
top=$(cd "$(dirname "$0")/.." && pwd)
shift || true
[ $# -gt 0 ] || set -- first contradiction edits realistic
work=$(mktemp -d)
trap 'rm -rf "$work"' EXIT

program() {
    for file in "$folder/$1" "$folder/$2" "$folder/crates/$2/out/$2"; do
        [ ! -f "$file" ] || { printf '%s\n' "$file"; return; }
    done
    echo "no $1 in $folder" >&2
    exit 1
}
sut=$(program sut sut_cli)
sutcheck=$(program sutcheck sut_checker)

cat >"$work/memory.c" <<'C'
#define _GNU_SOURCE
#include <stdio.h>
#include <stdlib.h>
/* FAIL_AT=N refuses the Nth allocation, FAIL_FROM=N all from the Nth on; COUNT_TO=FILE writes how many there were. */
extern void *__libc_malloc(size_t), *__libc_realloc(void *, size_t);
static unsigned long calls, at, from;
static int on;
static int is_refused(void) { return on && (++calls == at || (from && calls >= from)); }
void *malloc(size_t n) { return is_refused() ? NULL : __libc_malloc(n); }
void *realloc(void *p, size_t n) { return is_refused() ? NULL : __libc_realloc(p, n); }
static unsigned long number(const char *name) { const char *v = getenv(name); return v ? strtoul(v, 0, 10) : 0; }
__attribute__((constructor)) static void start(void) { at = number("FAIL_AT"); from = number("FAIL_FROM"); on = 1; }
__attribute__((destructor)) static void end(void)
{
    on = 0;
    const char *to = getenv("COUNT_TO");
    FILE *file = to ? fopen(to, "w") : NULL;
    if (file) { fprintf(file, "%lu\n", calls); fclose(file); }
}
C
cat >"$work/devices.c" <<'C'
#define _GNU_SOURCE
#include <errno.h>
#include <fcntl.h>
#include <signal.h>
#include <stdarg.h>
#include <stdlib.h>
#include <string.h>
#include <sys/stat.h>
#include <sys/syscall.h>
#include <unistd.h>
/* IO_AT=N: the Nth call fails with errno IO_ERR. IO_HOW: err, short (one byte), zero (answers 0), torn (half is written, then
   the error), kill (before the call), killtorn (after half a write). IO_LOG=FILE: the name of each call, one a line. */
static unsigned long calls, at;
static int error, log_to = -1;
static const char *how = "err";
static long number(const char *name) { const char *v = getenv(name); return v ? strtol(v, 0, 10) : 0; }
__attribute__((constructor)) static void start(void)
{
    at = number("IO_AT");
    error = number("IO_ERR");
    if (getenv("IO_HOW")) how = getenv("IO_HOW");
    if (getenv("IO_LOG")) log_to = syscall(SYS_openat, AT_FDCWD, getenv("IO_LOG"), O_WRONLY | O_CREAT | O_APPEND | O_CLOEXEC, 0644);
}
static int is(const char *word) { return !strcmp(how, word); }
static int fails(const char *name)
{
    calls++;
    if (log_to >= 0) { syscall(SYS_write, log_to, name, strlen(name)); syscall(SYS_write, log_to, "\n", 1); }
    if (at != calls) return 0;
    if (is("kill")) syscall(SYS_kill, getpid(), SIGKILL);
    errno = error;
    return 1;
}
int open(const char *path, int flags, ...)
{
    va_list rest;
    va_start(rest, flags);
    int mode = va_arg(rest, int);
    va_end(rest);
    return fails("open") ? -1 : syscall(SYS_openat, AT_FDCWD, path, flags, mode);
}
ssize_t read(int fd, void *to, size_t n)
{
    if (!fails("read")) return syscall(SYS_read, fd, to, n);
    return is("short") ? syscall(SYS_read, fd, to, n ? 1 : 0) : is("zero") ? 0 : -1;
}
ssize_t write(int fd, const void *from, size_t n)
{
    if (!fails("write")) return syscall(SYS_write, fd, from, n);
    if (is("short")) return syscall(SYS_write, fd, from, n ? 1 : 0);
    if (is("zero")) return 0;
    if (is("torn") || is("killtorn")) syscall(SYS_write, fd, from, n / 2);
    if (is("killtorn")) syscall(SYS_kill, getpid(), SIGKILL);
    errno = error;
    return -1;
}
int close(int fd)
{
    int failed = fails("close"), result = syscall(SYS_close, fd);
    if (failed) errno = error;
    return failed ? -1 : result;
}
int rename(const char *from, const char *to) { return fails("rename") ? -1 : syscall(SYS_rename, from, to); }
int fsync(int fd) { return fails("fsync") ? -1 : syscall(SYS_fsync, fd); }
int unlink(const char *path) { return fails("unlink") ? -1 : syscall(SYS_unlink, path); }
int fchmod(int fd, mode_t mode) { return fails("fchmod") ? -1 : syscall(SYS_fchmod, fd, mode); }
int statx(int fd, const char *path, int flags, unsigned mask, struct statx *to)
{
    return fails("statx") ? -1 : syscall(SYS_statx, fd, path, flags, mask, to);
}
C
for it in memory devices; do gcc -shared -fPIC -O2 -o "$work/$it.so" "$work/$it.c"; done

cat >"$work/sweep.py" <<'PYTHON'
import collections, errno, os, shutil, subprocess, sys

WRITTEN = "edited trail balanced supply use accounts certificate".split()
WRITTEN = [f"{it}.csv" for it in WRITTEN] + ["report.json", "review.csv"]
work, sut, sutcheck, *runs = sys.argv[1:]
CODES = [1, 10, 11, 12, 13, -9]

# For each fault: its errno, how it comes, and the calls that it is tried at (none: at each).
DEVICE_FAULTS = {
    "an error": (errno.EIO, "err", None),
    "an interrupt": (errno.EINTR, "err", "open read write fsync rename unlink statx"),
    "no such file": (errno.ENOENT, "err", "open statx"),
    "one byte taken or given": (0, "short", "read write"),
    "nothing taken": (0, "zero", "write"),
    "a half written, then a full disk": (errno.ENOSPC, "torn", "write"),
    "killed before the call": (0, "kill", None),
    "killed with a half written": (0, "killtorn", "write"),
}


def old(name):
    return f"OLD {name}\n".encode()


class Run:
    """A command over a year: run in a copy of it, in which older texts stand under all names that are written."""

    def __init__(self, label):
        year, self.name, *self.words = label.split(",")
        self.label = " ".join([year, self.name, *self.words])
        self.program = sut if self.name == "sut" else sutcheck
        self.year = f"{work}/{year}" + ("" if self.name == "sut" else "-written")
        self.whole = self.under()

    def under(self, in_place=False, **env):
        """The code, what was printed and said, and the files afterwards."""
        at = f"{work}/copy"
        if not in_place:
            shutil.rmtree(at, ignore_errors=True)
            shutil.copytree(self.year, at)
            for name in WRITTEN if self.name == "sut" else []:
                with open(f"{at}/{name}", "wb") as it:
                    it.write(old(name))
        ran = subprocess.run(
            [self.program, *self.words], cwd=at, env={**os.environ, **env}, stdin=subprocess.DEVNULL, capture_output=True, timeout=60
        )
        files = {name: open(f"{at}/{name}", "rb").read() for name in sorted(os.listdir(at))}
        return ran.returncode, ran.stdout, ran.stderr.decode(), files

    def states(self, files):
        """For each name that a run writes, in order, whether its new or its old text stands, or none of them."""
        now = self.whole[3]
        names = [it for it in WRITTEN if it in now and now[it] != old(it) and self.name == "sut"]
        return {it: "new" if files.get(it) == now[it] else "old" if files.get(it) == old(it) else "torn" for it in names}

    def is_right(self, code, out, said, files):
        """Whether a run that ended did so as the whole one, or as the code says that it must."""
        whole_code, whole_out, _, whole_files = self.whole
        if self.name == "sutcheck" or (code, out) == (whole_code, whole_out):
            if files != whole_files:
                return False
        if (code, out) == (whole_code, whole_out):
            return True
        states = self.states(files)
        order = list(states.values())
        if set(files) != set(whole_files) or "torn" in order or order != sorted(order):
            return False
        word, _, name = said.rstrip("\n").removeprefix(f"{self.name}: ").rpartition(" ")
        if code == 1:
            return out == b"" and said == f"{self.name}: out of memory\n"
        if code in (10, 12):
            return out == b"" and word == {10: "cannot read", 12: "missing"}[code] and name in files and "new" not in order
        if code == 11:
            before, after = list(states)[:list(states).index(name)], list(states)[list(states).index(name) + 1:]
            right = all(states[it] == "new" for it in before) and all(states[it] == "old" for it in after)
            return out == b"" and word == "cannot write" and right
        return code == 13 and whole_out.startswith(out) and "old" not in order

    def is_right_after_kill(self, out, files):
        """Whether a killed run left whole texts, the new ones first; and the next run in that folder ends as the whole one."""
        order = list(self.states(files).values())
        again = self.under(in_place=True)
        return self.whole[1].startswith(out) and "torn" not in order and order == sorted(order) and again == self.whole


def tell(program, fault, ends, bad):
    codes = "".join(f" {ends[it]} |" if ends[it] else " |" for it in ["whole", *CODES])
    print(f"| `{program}`: {fault} | {sum(ends.values())} |{codes} {len(bad)} |", flush=True)
    for it in bad[:3]:
        print(f"wrong: {it}", file=sys.stderr)


def note(run, ended, ends, bad, place):
    code, out, said, files = ended
    right = run.is_right_after_kill(out, files) if code == -9 else run.is_right(code, out, said, files)
    ends["whole" if (code, out) == run.whole[:2] else code] += 1
    if not right or code not in (run.whole[0], *CODES):
        bad.append((run.label, place, code, out, said))


def refused_memory(program, mode, fault):
    ends, bad = collections.Counter(), []
    for run in program:
        base = {"LD_PRELOAD": f"{work}/memory.so", "COUNT_TO": f"{work}/count"}
        run.under(**base)
        for number in range(1, int(open(f"{work}/count").read()) + 1):
            note(run, run.under(**base, **{mode: str(number)}), ends, bad, number)
    tell(program[0].name, fault, ends, bad)


def failing_devices(program, fault):
    error, how, of = DEVICE_FAULTS[fault]
    ends, bad = collections.Counter(), []
    for run in program:
        base = {"LD_PRELOAD": f"{work}/devices.so"}
        open(f"{work}/log", "w").close()
        run.under(**base, IO_LOG=f"{work}/log")
        for number, name in enumerate(open(f"{work}/log").read().split(), 1):
            if of is None or name in of.split():
                env = {"IO_AT": str(number), "IO_ERR": str(error), "IO_HOW": how}
                note(run, run.under(**base, **env), ends, bad, (number, name))
    tell(program[0].name, fault, ends, bad)


print("| fault | runs | as without it | 1 | 10 | 11 | 12 | 13 | killed | wrong |")
print("|---|---|---|---|---|---|---|---|---|---|")
runs = [Run(it) for it in runs]
for name in ["sut", "sutcheck"]:
    program = [it for it in runs if it.name == name]
    refused_memory(program, "FAIL_AT", "one allocation refused")
    refused_memory(program, "FAIL_FROM", "one allocation and all later ones refused")
    for fault in DEVICE_FAULTS:
        if name == "sut" or "written" not in fault:
            failing_devices(program, fault)
PYTHON

runs=()
for year; do
    mkdir "$work/$year" "$work/$year-written"
    word=balance
    rows=
    for file in settings.toml classes.csv source.csv edits.csv; do
        [ ! -f "$top/examples/$year/$file" ] || cp "$top/examples/$year/$file" "$work/$year"
    done
    [ ! -f "$work/$year/edits.csv" ] || { word=edit; rows=,edited; }
    cp "$work/$year"/* "$work/$year-written"
    (cd "$work/$year-written" && "$sut" $word >"$work/said") || true
    runs+=("$year,sut,$word" "$year,sutcheck$rows")
done
python3 "$work/sweep.py" "$work" "$sut" "$sutcheck" "${runs[@]}"
