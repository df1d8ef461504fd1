#!/usr/bin/env bash
# Makes the record of a build with a million looks, writes it and reads it again, and prints the seconds and the peak memory
# of each step. The build is a program with a thousand references beside five hundred host libraries, in files in memory: each
# reference is looked up twice in each library, as a call and as a place. The aims: each step below two seconds, and
# reading at most ten times as long as `wc -l` of the text. It needs the built program of `record_bench`
# (crates/record_bench/out/record_bench) and python3; two numbers may be given in place of a thousand and five hundred.
set -u
cd "$(dirname "$0")/.." || exit 1
exec python3 - "$PWD/crates/record_bench/out/record_bench" "$@" <<'PY'
import os, subprocess, sys, tempfile, time

program, given = sys.argv[1], [int(word) for word in sys.argv[2:]]
REFERENCES, LIBRARIES = given if len(given) == 2 else (1000, 500)
TRIES = 3


def build():
    """The build as a document: the last library has all symbols, the others have one each."""
    names = [f"libhost{n}.so.1" for n in range(LIBRARIES)]
    quoted = ", ".join(f'"{name}"' for name in names)
    asked = ", ".join(f'{{ name = "a_function_of_the_program_{n}", undefined = true }}' for n in range(REFERENCES))
    there = ", ".join(f'{{ name = "a_function_of_the_program_{n}" }}' for n in range(REFERENCES))
    yield '[[case]]\nname = "many looks"\ndirs = ["/lib64"]\n'
    yield f'names = ["ld.so", {quoted}]\nprograms = [{{ path = "/app/a" }}]\nwants = []\nfiles = [\n'
    yield f'  {{ path = "/app/a", interp = "/lib64/ld.so", needs = [{quoted}], symbols = [{asked}] }},\n'
    for number, name in enumerate(names):
        own = f'{{ name = "own_{number}" }}'
        symbols = there if number + 1 == LIBRARIES else own
        yield f'  {{ path = "/lib64/{name}", soname = "{name}", symbols = [{symbols}] }},\n'
    yield '  { path = "/lib64/ld.so", soname = "ld.so" },\n]\n'


def peak(pid):
    """Peak memory so far, in bytes."""
    with open(f"/proc/{pid}/status") as lines:
        return next(int(line.split()[1]) * 1024 for line in lines if line.startswith("VmHWM"))


def run(document, text):
    """Seconds and peak memory at the end of each step, with the line that ends it; the rest of what is printed is the text."""
    child = subprocess.Popen([program], stdin=open(document), stdout=subprocess.PIPE)
    steps = []
    for word in (b"loaded", b"split", b"made", b"written", b"read"):
        line = child.stdout.readline()
        if not line.startswith(word):
            sys.exit(f"{word.decode()}: said {line!r}")
        steps.append((time.monotonic(), peak(child.pid), line.decode().strip()))
    with open(text, "wb") as out:
        out.write(child.stdout.read())
    if child.wait() != 0:
        sys.exit("the program failed")
    return steps


def counted(text):
    begun = time.monotonic()
    lines = subprocess.run(["wc", "-l", text], capture_output=True, text=True).stdout.split()[0]
    return time.monotonic() - begun, int(lines)


with tempfile.TemporaryDirectory() as folder:
    document, text = os.path.join(folder, "build.toml"), os.path.join(folder, "host.txt")
    with open(document, "w") as out:
        out.writelines(build())
    runs = [run(document, text) for _ in range(TRIES)]
    lines = min(counted(text) for _ in range(TRIES))
    print(f"{REFERENCES} references, {LIBRARIES} host libraries; a text of {os.path.getsize(text)} bytes and {lines[1]} lines; "
          f"best of {TRIES}")
    for number, step in enumerate(("splitting", "making", "writing", "reading"), 1):
        seconds = min(steps[number][0] - steps[number - 1][0] for steps in runs)
        memory = max(steps[number][1] for steps in runs)
        print(f"{step}: {seconds:.3f} s, peak memory so far {memory / 1e6:.0f} MB ({runs[0][number][2]})")
    reading = min(steps[4][0] - steps[3][0] for steps in runs)
    print(f"wc -l: {lines[0]:.3f} s; reading takes {reading / lines[0]:.1f} times as long")
PY
