#!/usr/bin/env bash
# Runs each command of the built program (crates/appdir/out/appdir) again and again, each time with another allocation
# refused: it ends as it does with ample memory, or with NoMemory, ReadFailed or WriteFailed, never by a signal, and a
# directory without all its files has no AppRun. It needs python3 and cc, for a library that is loaded before the C
# library and refuses. The number of tries for each command may be given.
set -u
cd "$(dirname "$0")/.." || exit 1
exec python3 - "$PWD/crates/appdir/out/appdir" "$@" <<'PY'
import os, shutil, subprocess, sys, tempfile

appdir = sys.argv[1]
tries = int(sys.argv[2]) if len(sys.argv) > 2 else 400

# Refuses the allocation whose number is in REFUSED, counted from 1, and writes into the file TOLD how many there were.
REFUSING = r"""
#define _GNU_SOURCE
#include <errno.h>
#include <fcntl.h>
#include <stdio.h>
#include <stdlib.h>
#include <unistd.h>
extern void *__libc_malloc(size_t), *__libc_calloc(size_t, size_t), *__libc_realloc(void *, size_t),
    *__libc_memalign(size_t, size_t);
static unsigned long count, refused;
static int started;
__attribute__((constructor)) static void start(void) {
    const char *text = getenv("REFUSED");
    refused = text ? strtoul(text, 0, 10) : 0;
    started = 1;
}
__attribute__((destructor)) static void tell(void) {
    const char *path = getenv("TOLD");
    char line[32];
    int file = path ? open(path, O_WRONLY | O_CREAT | O_TRUNC, 0600) : -1;
    started = 0;
    if (file >= 0) {
        (void)!write(file, line, snprintf(line, sizeof line, "%lu", count));
        close(file);
    }
}
static int is_refused(void) { return started && ++count == refused; }
void *malloc(size_t n) { if (is_refused()) { errno = ENOMEM; return 0; } return __libc_malloc(n); }
void *calloc(size_t k, size_t n) { if (is_refused()) { errno = ENOMEM; return 0; } return __libc_calloc(k, n); }
void *realloc(void *p, size_t n) { if (is_refused()) { errno = ENOMEM; return 0; } return __libc_realloc(p, n); }
void *aligned_alloc(size_t a, size_t n) { if (is_refused()) { errno = ENOMEM; return 0; } return __libc_memalign(a, n); }
int posix_memalign(void **p, size_t a, size_t n) {
    if (is_refused()) return ENOMEM;
    *p = __libc_memalign(a, n);
    return *p ? 0 : ENOMEM;
}
"""

GIVEN_UP = {3: "ReadFailed", 4: "WriteFailed", 5: "NoMemory"}
passed, failed = 0, 0


def run(words, shim, number, told):
    env = dict(os.environ, LD_PRELOAD=shim, REFUSED=str(number), TOLD=told)
    done = subprocess.run([appdir] + words, env=env, stdin=subprocess.DEVNULL, capture_output=True)
    return done.returncode, done.stdout, done.stderr.decode(errors="replace")


def wrong(whole, done, out):
    """What is wrong with the end of a call, or nothing."""
    if done[0] == whole[0] and done[1] == whole[1]:
        return None
    if GIVEN_UP.get(done[0]) is None or done[2] != f"appdir: {GIVEN_UP[done[0]]}\n":
        return f"exit {done[0]}, {done[1][:80]!r} {done[2][:80]!r}"
    if out and os.path.exists(os.path.join(out, "AppRun")):
        return "it gave up, and there is an AppRun"
    return None


def check(what, words, room, shim, out=None):
    global passed, failed
    told = os.path.join(room, "told")

    def once(number):
        if out:
            shutil.rmtree(out, ignore_errors=True)
        return run(words, shim, number, told)

    whole = once(0)
    with open(told) as text:
        count = int(text.read())
    if whole[0] != 0 or count == 0:
        failed += 1
        print(f"FAILED: {what}: exit {whole[0]} with ample memory, {count} allocations", flush=True)
        return
    step = max(1, count // tries)
    gave_up = 0
    for number in range(1, count + 1, step):
        done = once(number)
        fault = wrong(whole, done, out)
        if fault:
            failed += 1
            print(f"FAILED: {what}, allocation {number} of {count} refused: {fault}", flush=True)
            return
        gave_up += done[0] != 0
    if gave_up == 0:
        failed += 1
        print(f"FAILED: {what}: no refused allocation was told", flush=True)
        return
    passed += 1
    print(f"ok: {what}: {len(range(1, count + 1, step))} of {count} allocations refused, {gave_up} calls gave up", flush=True)


if not os.access(appdir, os.X_OK):
    sys.exit(f"there is no {appdir}: run rt ci first")
room = tempfile.mkdtemp()
try:
    if not shutil.which("cc"):
        print("skipped: there is no cc")
        sys.exit(0)
    shim = os.path.join(room, "refusing.so")
    with open(os.path.join(room, "refusing.c"), "w") as text:
        text.write(REFUSING)
    subprocess.run(["cc", "-O1", "-shared", "-fPIC", "-o", shim, os.path.join(room, "refusing.c")], check=True)
    program = os.path.realpath("/usr/bin/env")
    packed = os.path.join(room, "packed")
    subprocess.run([appdir, "quick", program, packed], check=True, stdout=subprocess.DEVNULL)
    shutil.copy(program, os.path.join(room, "hello"))
    shutil.copy("examples/hello.desktop", room)
    with open(os.path.join(room, "hello.png"), "wb") as icon:
        icon.write(b"an icon is copied as it is")
    with open("examples/plain.toml") as example, open(os.path.join(room, "plain.toml"), "w") as config:
        config.write(example.read().replace("/opt/example/bin", room).replace("/opt/example", room))
    out = os.path.join(room, "out")
    check("quick", ["quick", program, out], room, shim, out)
    check("build", ["build", os.path.join(room, "plain.toml"), out], room, shim, out)
    check("show", ["show", program], room, shim)
    check("host", ["host", packed], room, shim)
    check("gen", ["gen", "5"], room, shim)
finally:
    shutil.rmtree(room)
print(f"failing memory: {passed} passed, {failed} failed")
sys.exit(failed > 0)
PY
