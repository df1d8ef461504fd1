#!/usr/bin/env bash
# Sets `show` beside the real loader, on programs of this machine: the same files in the same order, and each binding that
# the loader prints is one that `show` has. The loader runs no code of the program for this. It needs the built program,
# which `rt ci` and `rt run` leave in crates/appdir/out. What the machine lacks is skipped, with a word.
set -u
cd "$(dirname "$0")/.." || exit 1
appdir=$PWD/crates/appdir/out/appdir
work=$(mktemp -d) || exit 1
trap 'rm -rf "$work"' EXIT
passed=0 failed=0 skipped=0 compared=0

pass() { passed=$((passed + 1)); echo "ok: $1"; }
fail() { failed=$((failed + 1)); echo "FAILED: $1"; }
skip() { skipped=$((skipped + 1)); echo "skipped: $1"; }

# What the loader says of a program: in $work/trace the files that it loads, in $work/debug what it searches and binds.
ask_loader() {
    rm -f "$work"/debug "$work"/debug.*
    env -i LD_TRACE_LOADED_OBJECTS=1 LD_WARN=yes LD_BIND_NOW=1 LD_DEBUG=libs,versions,bindings \
        LD_DEBUG_OUTPUT="$work/debug" "$1" >"$work/trace" 2>/dev/null
    cat "$work"/debug.* >"$work/debug" 2>/dev/null
}

# The files behind links, of the paths on standard input.
behind_links() { while read -r path; do realpath "$path"; done; }

# The files that the loader loads for a program, in order, without the vdso, which is no file.
loaded_by_loader() {
    sed -n 's/^\t.* => \(\/.*\) (0x.*/\1/p; s/^\t\(\/[^ ]*\) (0x.*/\1/p' "$work/trace" | behind_links
}

# The bindings that the loader printed, without those of the vdso: from, to, symbol and version, a tab between each.
bound_by_loader() {
    sed -n "s/.*binding file \(.*\) \[0\] to \(.*\) \[0\]: [a-z]* symbol \`\([^']*\)'\( \[\(.*\)\]\)\{0,1\}\$/\1\t\2\t\3\t\5/p" \
        "$work/debug" | grep -v '^linux-vdso' | sort -u
}

# Each path on standard input with the file behind its links.
with_files() { sort -u | while read -r path; do printf '%s\t%s\n' "$path" "$(realpath "$path")"; done; }

# The bindings of the loader that the report does not have.
differing() {
    awk -F '\t' -v report="$work/report" -v files="$work/files" '
        BEGIN {
            while ((getline line < files) > 0) { split(line, f, "\t"); file[f[1]] = f[2] }
            while ((getline line < report) > 0) {
                n = split(line, w, " ")
                if (w[1] == "load") object[w[2]] = file[w[3]]
                if (w[1] == "bind" && n == 8)
                    has[object[w[2]] "\t" object[w[7]] "\t" w[4] "\t" (w[5] == "-" ? "" : w[5])] = 1
            }
        }
        !((file[$1] "\t" file[$2] "\t" $3 "\t" $4) in has) { print }' "$work/bound"
}

# Is the symbol one of which a process has one? The loader joins these over all objects, which the report leaves out.
is_unique() {
    readelf --dyn-syms -W "$1" 2>/dev/null | awk -v name="$2" '$5 == "UNIQUE" { sub(/@.*/, "", $8); if ($8 == name) found = 1 }
        END { exit !found }'
}

# Counts what differs, and of it the symbols of which a process has one.
count_differing() {
    local from to symbol version
    others=0 unique=''
    while IFS=$'\t' read -r from to symbol version; do
        if is_unique "$to" "$symbol"; then
            unique="$unique $symbol"
        else
            others=$((others + 1))
            [ "$others" -gt 5 ] || echo "  $from to $to: $symbol [$version]"
        fi
    done < <(differing)
}

# Sets `show` of a program beside the loader.
agrees() {
    local program bound references
    [ -x "$1" ] || { skip "$1 is not here"; return; }
    program=$(realpath "$1")
    ask_loader "$program"
    [ -s "$work/debug" ] || { skip "the loader says nothing of $program"; return; }
    if ! "$appdir" show "$program" >"$work/report" 2>"$work/errors"; then
        fail "show $program: $(head -c 300 "$work/report") $(cat "$work/errors")"
        return
    fi
    sed -n 's/^load [1-9][0-9]* \(.*\) -$/\1/p' "$work/report" | behind_links >"$work/shown"
    loaded_by_loader >"$work/loaded"
    if ! cmp -s "$work/shown" "$work/loaded"; then
        fail "load order of $program: $(diff "$work/shown" "$work/loaded" | head -5 | tr '\n' ' ')"
        return
    fi
    bound_by_loader >"$work/bound"
    { cut -f 1 "$work/bound"; cut -f 2 "$work/bound"; sed -n 's/^load [0-9]* \(.*\) -$/\1/p' "$work/report"; } |
        with_files >"$work/files"
    bound=$(wc -l <"$work/bound")
    references=$(grep -c '^bind' "$work/report")
    count_differing
    if [ "$others" -gt 0 ] || [ "$bound" = 0 ]; then
        fail "$program: $others of $bound bindings of the loader are none of show's $references"
    else
        compared=$((compared + 1))
        pass "$program: $(wc -l <"$work/loaded") libraries in the loader's order, $bound bindings of the loader among $references${unique:+, but for the unique$unique}"
    fi
}

[ -x "$appdir" ] || { echo "no program at $appdir: rt ci makes it"; exit 1; }
for program in /bin/ls /bin/cp /usr/bin/sort /usr/bin/stat /bin/sh /bin/bash /bin/grep /bin/tar /usr/bin/perl \
    /usr/bin/python3 /usr/bin/gcc /usr/bin/git /usr/bin/gdb /usr/bin/openssl /usr/bin/curl /usr/bin/cmake; do
    agrees "$program"
done
[ "$compared" -ge 8 ] || fail "only $compared programs were compared, and not eight"
echo "real loader: $passed passed, $failed failed, $skipped skipped"
[ "$failed" = 0 ]
