#!/usr/bin/env bash
# Packs real programs of this machine, and asks `host` about each AppDir: in the machine's own directories, in a copy of
# the host libraries that it names, and in copies with one library that is another. Then starts AppRun in a root of its own
# that has the host libraries and nothing else, and by the copied loader. It needs the built program
# (crates/appdir/out/appdir), python3 and readelf. What the machine lacks is skipped, with a word. Programs may be given in
# place of those that are tried.
set -u
cd "$(dirname "$0")/.." || exit 1
exec python3 - "$PWD/crates/appdir/out/appdir" "$@" <<'PY'
import os, re, shutil, subprocess, sys, tempfile

appdir, given = sys.argv[1], sys.argv[2:]
PROGRAMS = ("/usr/bin/git", os.path.realpath(sys.executable), "/usr/bin/perl", "/usr/bin/gdb", "/usr/bin/curl",
            "/usr/bin/env")
DIRS = ("/usr/local/lib", "/lib/x86_64-linux-gnu", "/usr/lib/x86_64-linux-gnu", "/lib64", "/usr/lib64", "/lib", "/usr/lib")
READS_FILES = ("gdb",)
AT_LEAST = 3

passed, failed, skipped, asked = 0, 0, 0, 0


def ok(what):
    global passed
    passed += 1
    print("ok:", what, flush=True)


def fail(what):
    global failed
    failed += 1
    print("FAILED:", what, flush=True)


def skip(what):
    global skipped
    skipped += 1
    print("skipped:", what, flush=True)


def run(words, env=None, executable=None):
    done = subprocess.run(words, env=env if env is not None else os.environ, executable=executable,
                          stdin=subprocess.DEVNULL, capture_output=True)
    return done.returncode, done.stdout.decode(errors="replace"), done.stderr.decode(errors="replace")


def expect(what, words, status, lines):
    """The exit and the line of a call."""
    done = run(words)
    if done[0] == status and done[1] in lines:
        ok(f"{what}: {done[1].strip()}")
    else:
        fail(f"{what}: exit {done[0]}, {done[1].strip()!r} {done[2].strip()!r}, and not {status}, {lines}")


class Record:
    """What host.txt says: the interpreters, the needs of each library, and its versions."""

    def __init__(self, out):
        self.interps, self.needs, self.versions = [], {}, {}
        with open(os.path.join(out, "usr/share/appdir/host.txt")) as text:
            for line in text:
                words = line.split()
                if words[0] == "interp":
                    self.interps.append(words[1])
                elif words[0] == "lib":
                    name = words[1]
                    self.needs[name] = []
                elif words[0] == "need":
                    self.needs[name].append(words[1])
                elif words[0] == "version":
                    self.versions.setdefault(words[1], []).append(words[2])


def found(name):
    """The first file of a name in the default directories."""
    return next(path for path in (os.path.join(where, name) for where in DIRS) if os.path.isfile(path))


def copied(record, place):
    """A directory that has the host libraries and nothing else."""
    os.makedirs(place)
    for name in record.needs:
        shutil.copy(found(name), os.path.join(place, name))
    return place


def other_build(record, name, where):
    """Another build of a library, with its soname and needs, and without versions; or nothing."""
    if not shutil.which("gcc"):
        return None
    source, script = os.path.join(where, "other.c"), os.path.join(where, "other.map")
    with open(source, "w") as text:
        text.write("int appdir_other(void) { return 1; }\n")
    with open(script, "w") as text:
        text.write("APPDIR_OTHER { global: appdir_other; local: *; };\n")
    needs = [found(need) for need in record.needs[name]]
    library = os.path.join(where, name)
    status, _, said = run(["gcc", "-shared", "-fPIC", "-nostdlib", "-o", library, source, f"-Wl,-soname,{name}",
                           f"-Wl,--version-script,{script}", "-Wl,--no-as-needed", *needs])
    if status != 0:
        fail(f"gcc makes no other {name}: {said}")
        return None
    return library


def check_changed(what, out, record, room):
    """A copy of the libraries in which one is another file is named."""
    with_versions = [name for name in record.versions if record.needs[name]]
    if not with_versions:
        return skip(f"{what}: no library with needs of which versions are asked")
    name = with_versions[0]
    place = copied(record, os.path.join(room, "changed"))
    made = os.path.join(room, "made")
    os.makedirs(made)
    library = other_build(record, name, made)
    if library:
        shutil.copy(library, os.path.join(place, name))
        lines = [f"refused 52: library {name} lacks {version}\n" for version in record.versions[name]]
        expect(f"{what}, {name} without its versions", [appdir, "host", out, place], 1, lines)
    other = next(n for n in record.needs if n != name)
    shutil.copy(found(other), os.path.join(place, name))
    soname = re.search(r"\(SONAME\).*\[(.*)\]", run(["readelf", "-dW", found(other)])[1]).group(1)
    first = next(n for n in record.needs)
    lines = [f"refused 52: library {name} has the soname {soname}\n"]
    expect(f"{what}, {other} as {name}", [appdir, "host", out, place], 1, lines)
    os.unlink(os.path.join(place, first))
    expect(f"{what}, without {first}", [appdir, "host", out, place], 1, [f"refused 52: library {first} is absent\n"])


def check_root(what, program, out, record, room):
    """AppRun in a root that has the interpreter, the host libraries, and the directory."""
    root = os.path.join(room, "root")
    shutil.copytree(out, os.path.join(root, "app"))
    copied(record, os.path.join(root, "lib/x86_64-linux-gnu"))
    for interp in record.interps:
        place = root + interp
        os.makedirs(os.path.dirname(place), exist_ok=True)
        shutil.copy(interp, place)
    version = run([program, "--version"], env={})
    # a loader finds $ORIGIN by /proc, as a container has it
    os.makedirs(os.path.join(root, "proc"))
    os.makedirs(os.path.join(root, "dev"))
    open(os.path.join(root, "dev", "null"), "w").close()
    apart = [shutil.which("unshare") or "unshare", "--mount", "--pid", "--fork", f"--mount-proc={root}/proc"]
    chroot = shutil.which("chroot")
    if os.path.basename(program) in READS_FILES:
        skip(f"{what} reads files beside its libraries before it prints its version")
    elif not chroot or not shutil.which("unshare") or run(apart + [shutil.which("true") or "true"])[0] != 0:
        skip(f"{what}: no root of its own")
    else:
        there = run(apart + [chroot, root, "/app/AppRun", "--version"], env={})
        ok(f"{what} prints its version in a root of its own") if there[:2] == version[:2] else fail(
            f"{what} in a root of its own prints {there}, and not {version}")
    loader = os.path.join(root, "lib/x86_64-linux-gnu", os.path.basename(record.interps[0]))
    libraries = os.path.join(root, "lib/x86_64-linux-gnu")
    there = run([loader, "--library-path", libraries, os.path.join(root, "app/AppRun"), "--version"], env={})
    ok(f"{what} prints its version by the copied loader") if there[:2] == version[:2] else fail(
        f"{what} by the copied loader prints {there}, and not {version}")


def check(program, room):
    global asked
    if not os.access(program, os.X_OK):
        return skip(f"{program} is not here")
    program = os.path.realpath(program)
    out = os.path.join(room, "out")
    status, line, complaints = run([appdir, "quick", program, out])
    if status != 0:
        return fail(f"quick {program}: {line}{complaints}")
    expect(f"host {program}", [appdir, "host", out], 0, ["meets\n"])
    record = Record(out)
    place = copied(record, os.path.join(room, "copied"))
    expect(f"host {program}, copied libraries", [appdir, "host", out, place], 0, ["meets\n"])
    check_changed(f"host {program}", out, record, room)
    check_root(program, program, out, record, room)
    os.unlink(os.path.join(out, "usr/share/appdir/host.txt"))
    path = os.path.join(out, "usr/share/appdir/host.txt").replace("\\", "\\x5c")
    expect(f"host {program}, no record", [appdir, "host", out], 1, [f"refused 50: no record at {path}\n"])
    asked += 1


if not os.access(appdir, os.X_OK):
    sys.exit(f"there is no {appdir}: run rt ci first")
if not shutil.which("readelf"):
    sys.exit("there is no readelf")
for program in given or PROGRAMS:
    room = tempfile.mkdtemp()
    try:
        check(program, room)
    finally:
        shutil.rmtree(room)
if not given and asked < AT_LEAST:
    fail(f"only {asked} programs were asked about, and not {AT_LEAST}")
print(f"hosts: {passed} passed, {failed} failed, {skipped} skipped")
sys.exit(failed > 0)
PY
