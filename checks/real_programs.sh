#!/usr/bin/env bash
# Packs programs of this machine, and looks at what comes out. It needs the built program, which `rt ci` and `rt run`
# leave in crates/appdir/out. What the machine lacks is skipped, with a word.
set -u
cd "$(dirname "$0")/.." || exit 1
appdir=$PWD/crates/appdir/out/appdir
hosts='ld-linux-x86-64.so.2 libc.so.6 libm.so.6 libdl.so.2 libpthread.so.0 librt.so.1 libresolv.so.2 libutil.so.1'
texts='usr/share/appdir/bindings.txt usr/share/appdir/files.txt usr/share/appdir/host.txt'
# a library of a listed directory that only this check has
listed=/usr/local/lib/libappdir-check.so.1
work=$(mktemp -d) || exit 1
made=''
mounted=''
trap '[ -z "$mounted" ] || umount "$mounted"; rm -rf "$work" $made' EXIT
passed=0 failed=0 skipped=0

pass() { passed=$((passed + 1)); echo "ok: $1"; }
fail() { failed=$((failed + 1)); echo "FAILED: $1"; }
skip() { skipped=$((skipped + 1)); echo "skipped: $1"; }

# The names of the libraries that the machine's own loader loads for a program, one a line.
libraries_of() {
    ldd "$1" 2>/dev/null | sed -n 's/^\t\([^ ]*\).*/\1/p' | sed 's|.*/||' | grep -v '^linux-vdso'
}

# Is each of these names on the default list?
are_expected() {
    local name
    [ $# -gt 0 ] || return 1
    for name in "$@"; do
        case " $hosts " in *" $name "*) ;; *) return 1 ;; esac
    done
}

# refuses WHAT LINE WORD ..: the call prints this line, and nothing on standard error, and ends with status 1.
refuses() {
    local what=$1 line=$2 said status
    shift 2
    said=$("$appdir" "$@" 2>"$work/errors")
    status=$?
    if [ "$said" = "$line" ] && [ ! -s "$work/errors" ] && [ "$status" = 1 ]; then
        pass "$what: ${said:0:120}"
    else
        fail "$what: '$said', '$(cat "$work/errors")' with status $status, and not '$line' with status 1"
    fi
}

# fails_to WHAT NAME STATUS WORD ..: the call prints nothing, says this name on standard error, and ends with this status.
fails_to() {
    local what=$1 name=$2 number=$3 said status
    shift 3
    said=$("$@" 2>"$work/errors")
    status=$?
    if [ -z "$said" ] && [ "$(cat "$work/errors")" = "appdir: $name" ] && [ "$status" = "$number" ]; then
        pass "$what: $name"
    else
        fail "$what: '$said', '$(cat "$work/errors")' with status $status, and not 'appdir: $name' with status $number"
    fi
}

# The files below a folder, by their paths there, one a line.
files_below() { (cd "$1" && find . ! -type d | sed 's|^\./||' | LC_ALL=C sort); }

# holds_no_program WHAT FOLDER: neither AppRun nor a part of a file stands in the folder.
holds_no_program() {
    if [ ! -e "$2/AppRun" ] && [ -z "$(find "$2" -name .appdir-unfinished)" ]; then
        pass "$1: no AppRun and no part of a file was left"
    else
        fail "$1: left $(files_below "$2" | tr '\n' ' ')"
    fi
}

# A program that every host can run is packed: AppRun has its bytes, can be run, and prints the same.
packs() {
    local program=$1 out said libraries
    [ -x "$program" ] || { skip "$program is not here"; return; }
    program=$(realpath "$program")
    libraries=$(libraries_of "$program")
    # shellcheck disable=SC2086
    are_expected $libraries || { skip "$program needs more than the expected libraries"; return; }
    out=$work/packed$((passed + failed))
    said=$("$appdir" quick "$program" "$out" 2>/dev/null)
    if [ "$said" != "done: 4 files, 0 bundled, $(echo "$libraries" | wc -l) host libraries" ]; then
        fail "$program: '$said'"
    elif [ "$(files_below "$out" | tr '\n' ' ')" != "AppRun $texts " ]; then
        fail "$program: the folder has $(files_below "$out" | tr '\n' ' ')"
    elif ! cmp -s "$program" "$out/AppRun" || [ ! -x "$out/AppRun" ]; then
        fail "$program: AppRun is no executable copy"
    elif [ "$("$out/AppRun" --version 2>&1)" != "$("$program" --version 2>&1)" ]; then
        fail "$program: AppRun prints another --version"
    else
        pass "$program: $said"
    fi
}

[ -x "$appdir" ] || { echo "there is no $appdir: run rt ci first"; exit 1; }

for program in /usr/bin/true /usr/bin/cat /usr/bin/env /usr/bin/sort; do
    packs "$program"
done
packed=$passed

refuses 'a missing file' "refused 10: no program at $work/none" quick "$work/none" "$work/out"

long=$(printf 'a%.0s' {1..300})
refuses 'a part of 300 bytes' "refused 10: no program at $work/$long" quick "$work/$long" "$work/out"

printf '#!/bin/sh\necho hello\n' >"$work/script"
refuses 'a script' "refused 11: damaged $work/script: NotElf" quick "$work/script" "$work/out"

if [ -r /usr/bin/true ]; then
    head -c 100 /usr/bin/true >"$work/cut"
    headers=$(od -An -tu2 -j56 -N2 /usr/bin/true)
    refuses 'a cut file' "refused 11: damaged $work/cut: Short $((64 + 56 * headers)) 100" quick "$work/cut" "$work/out"
else
    skip 'there is no /usr/bin/true to cut'
fi

if printf 'int main(void) { return 0; }\n' | cc -static -no-pie -x c -o "$work/static" - 2>/dev/null; then
    refuses 'a static program' "refused 11: damaged $work/static: NoDynamic" quick "$work/static" "$work/out"
else
    skip 'no static program can be made here'
fi

# A name that is not UTF-8, in a copy of a real program: its place in the string table is told.
if [ -r /usr/bin/true ] && command -v readelf >/dev/null; then
    cp /usr/bin/true "$work/named"
    at=$(LC_ALL=C grep -abo 'libc\.so\.6' "$work/named" | head -n 1 | cut -d: -f1)
    strings=$(readelf -SW "$work/named" | sed -n 's/.* \.dynstr *STRTAB *[0-9a-f]* \([0-9a-f]*\) .*/\1/p')
    printf '\377' | dd of="$work/named" bs=1 seek="$at" conv=notrunc 2>/dev/null
    refuses 'a name that is no text' "refused 11: damaged $work/named: BadName $((at - 0x$strings))" quick "$work/named" "$work/out"
else
    skip 'there is no /usr/bin/true or no readelf'
fi

# A listed library that is cut off: a copy of a real one, under a name of this check's own.
library=$(ldd /usr/bin/true 2>/dev/null | sed -n 's/.*libc\.so\.6 => \([^ ]*\).*/\1/p')
if [ -r "$library" ] && [ -w /usr/local/lib ] && [ ! -e "$listed" ] &&
    printf 'int check(void) { return 0; }\n' |
    cc -shared -fPIC -Wl,-soname,"${listed##*/}" -x c -o "$work/check.so" - 2>/dev/null &&
    printf 'int check(void);\nint main(void) { return check(); }\n' |
    cc -x c -o "$work/needs" - -x none "$work/check.so" 2>/dev/null; then
    made=$listed
    head -c 100 "$library" >"$listed"
    headers=$(od -An -tu2 -j56 -N2 "$library")
    refuses 'a cut library' "refused 11: damaged $listed: Short $((64 + 56 * headers)) 100" quick "$work/needs" "$work/out" "${listed##*/}" libc.so.6 ld-linux-x86-64.so.2
    rm -f "$listed"
    made=
else
    skip 'no library can be put into a listed directory here'
fi

ln -s circle "$work/circle"
fails_to 'links in a circle' ReadFailed 3 "$appdir" quick "$work/circle" "$work/out"

[ -e "$work/out" ] && fail 'a call that was refused or could not read made its folder'

if [ -x /usr/bin/true ]; then
    mkdir "$work/full"
    echo kept >"$work/full/notes.txt"
    refuses 'a folder with a file' "refused 49: $work/full is not empty" quick "$(realpath /usr/bin/true)" "$work/full"
    if [ "$(ls -A "$work/full")" = notes.txt ] && [ "$(cat "$work/full/notes.txt")" = kept ]; then
        pass 'that folder is as it was'
    else
        fail 'that folder is not as it was'
    fi
else
    skip 'there is no /usr/bin/true to pack into a folder with a file'
fi

# Bits by the umask: each that may read AppRun may run it.
if [ -x /usr/bin/true ]; then
    program=$(realpath /usr/bin/true)
    for rights in 022:755 077:700; do
        out=$work/rights${rights%:*}
        (umask "${rights%:*}" && "$appdir" quick "$program" "$out" >"$work/said" 2>&1)
        if [ "$(stat -c %a "$out/AppRun")" = "${rights#*:}" ]; then
            pass "umask ${rights%:*}: AppRun is ${rights#*:}"
        else
            fail "umask ${rights%:*}: AppRun is not ${rights#*:}"
        fi
    done
fi

# Faults of the folder and of standard output.
if [ -x /usr/bin/true ] && [ "$(stat -L -c %s /usr/bin/true)" -gt 8192 ]; then
    program=$(realpath /usr/bin/true)
    # a disk that takes no more than a part of the program
    small=$work/small
    mkdir "$small"
    if mount -t tmpfs -o size=16k none "$small" 2>/dev/null; then
        mounted=$small
        fails_to 'a full disk' WriteFailed 4 "$appdir" quick "$program" "$small/out"
        holds_no_program 'a full disk' "$small"
        umount "$small"
        mounted=
    else
        skip 'no small file system can be mounted here'
    fi
    # a limit of the size of a file, in blocks of 1,024 bytes
    fails_to 'a limit of size' WriteFailed 4 bash -c 'trap "" XFSZ; ulimit -f 8; exec "$@"' - "$appdir" quick "$program" "$work/limited"
    holds_no_program 'a limit of size' "$work/limited"
    fails_to 'a file in the place of the folder' WriteFailed 4 "$appdir" quick "$program" "$work/script"
    if [ -w /dev/full ]; then
        # shellcheck disable=SC2016
        fails_to 'an output that takes nothing' PrintFailed 6 bash -c 'exec "$@" >/dev/full' - "$appdir" quick "$program" "$work/unsaid"
    else
        skip 'there is no /dev/full'
    fi
else
    skip 'there is no /usr/bin/true to fail with'
fi

# A program whose RUNPATH leads to a library beside it, which needs one more beside itself by its own RUNPATH.
app=$work/app
mkdir -p "$app/lib"
make_app() {
    printf 'int deep(void) { return 42; }\n' | cc -shared -fPIC -Wl,-soname,libdeep.so.1 -x c -o "$app/lib/libdeep.so.1" - &&
        printf 'int deep(void);\nint answer(void) { return deep(); }\n' >"$work/answer.c" &&
        cc -shared -fPIC -Wl,-soname,libanswer.so.1 -Wl,--enable-new-dtags,-rpath,"\$ORIGIN" -o "$app/lib/libanswer.so.1" "$work/answer.c" "$app/lib/libdeep.so.1" &&
        printf 'int answer(void);\nint main(void) { return answer() == 42 ? 0 : 1; }\n' >"$work/main.c" &&
        cc -Wl,--enable-new-dtags,-rpath,"\$ORIGIN/lib" -Wl,-rpath-link,"$app/lib" -o "$app/main" "$work/main.c" "$app/lib/libanswer.so.1"
}
if make_app 2>/dev/null; then
    # what is needed beside the program is bundled, and the program runs where it was never built
    said=$("$appdir" quick "$app/main" "$work/app.AppDir" 2>&1)
    mv "$work/app.AppDir" "$work/moved" && mv "$app/lib" "$app/elsewhere"
    if [ "$said" = 'done: 6 files, 2 bundled, 2 host libraries' ] && (cd / && env -i "$work/moved/AppRun") &&
        [ "$(files_below "$work/moved" | tr '\n' ' ')" = "AppRun usr/lib/libanswer.so.1 usr/lib/libdeep.so.1 $texts " ]; then
        pass "a program with a RUNPATH: $said, and it runs in another place"
    else
        fail "a program with a RUNPATH: '$said', $(files_below "$work/moved" | tr '\n' ' ')"
    fi
    mv "$app/elsewhere" "$app/lib"
    rm "$app/lib/libdeep.so.1"
    refuses 'a missing library of a library' "refused 16: missing library libdeep.so.1 needed by $app/lib/libanswer.so.1" quick "$app/main" "$work/out"
    rm "$app/lib/libanswer.so.1"
    refuses 'a missing library' "refused 16: missing library libanswer.so.1 needed by $app/main" quick "$app/main" "$work/out"
else
    skip 'no program with libraries can be made here'
fi

echo "real programs: $packed packed, $passed checks passed, $failed failed, $skipped skipped"
[ "$failed" = 0 ]
