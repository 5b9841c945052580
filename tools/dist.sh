# shellcheck shell=sh
# What the launchers and the scripts around dist/ share. It is sourced by POSIX shells, with `top` set to the repository's top, and
# with `name` set to that of the program, where it isn't fsck_ffs.
#
# dist/fsck_ffs     the program for x86-64 Linux, as the kit's linker made it, without its symbols; dist/ffs_find the second one
# dist/SHA256SUMS   their digests, as sha256sum -c reads them
# dist/BUILT_FROM   the digest of the sources that it was built from, what its --version prints, and the kit that built it

# shellcheck disable=SC2154
name=${name:-fsck_ffs}
built=$top/crates/$name/out/$name
kept=$top/dist/$name
version_file=crates/ffs_check/src/version.rt
programs="fsck_ffs ffs_find"
needs="x86-64 Linux with glibc 2.34 or newer"

# Says one line on standard error.
say() {
    echo "$name: $1" >&2
}

[ -c /dev/null ] || {
    say "there is no device /dev/null, which the launcher and its tools need; the program itself, $kept, doesn't"
    exit 8
}

# A temporary file. Where none can be made, one line says so.
temporary_file() {
    mktemp 2>/dev/null || {
        say "no temporary file can be made in ${TMPDIR:-/tmp}"
        return 1
    }
}

# The files that the programs' bytes come from, besides the kit and crates.txt: each file of Rattle of the two programs and of the crates
# below them. Definitions and proofs (.antt) leave no trace in a program, nor do the crates of tests, so they aren't among them. The
# file of the version is looked at by itself.
source_files() {
    # shellcheck disable=SC2046
    (cd "$top" && find $(crates_below "$programs" | sed 's,^,crates/,') -name out -prune -o -type f -name '*.rt' ! -path "$version_file" -print0)
}

# The text that --version prints after the program's name, as the sources have it: the version, and the first digits of the
# sources' digest.
version_text() {
    sed -n 's/^pub const VERSION: &str = "\(.*\)";$/\1/p' "$top/$version_file" 2>/dev/null
}

# The digest of the sources: SHA-256 of the lines that sha256sum prints of these files, in the order of their names' bytes, then of
# the lines of crates.txt of their crates, and of the file of the version without the line that holds this digest's first digits.
source_digest() {
    {
        source_files | LC_ALL=C sort -z | (cd "$top" && xargs -0 sha256sum)
        crates_below "$programs" | awk -F : 'NR == FNR { is_below[$1] = 1; next } is_below[$1]' - "$top/crates.txt" | sha256sum
        if [ -f "$top/$version_file" ]; then
            grep -v '^pub const VERSION: &str = "' "$top/$version_file" | sha256sum
        fi
    } | sha256sum | cut -d ' ' -f 1
}

# The first digits of a digest, as --version shows them.
first_digits() {
    echo "$1" | cut -c 1-12
}

# Whether a program was built here, and no source is newer.
is_built() {
    [ -x "$built" ] && [ -z "$(find "$top/crates.txt" "$top/crates" -name out -prune -o -type f \
        \( -name '*.rt' -o -name crates.txt \) -newer "$built" -print | head -n 1)" ]
}

# A field of dist/BUILT_FROM: sources, version or kit.
built_from() {
    sed -n "s/^$1 //p" "$top/dist/BUILT_FROM" 2>/dev/null
}

# Whether the system and the processor are those that the program is built for.
is_built_for_here() {
    [ "$(uname -sm)" = "Linux x86_64" ]
}

# Whether dist/ holds the program of these sources.
is_kept() {
    [ -f "$kept" ] && [ "$(built_from sources)" = "$(source_digest)" ] && [ "$(built_from version)" = "$(version_text)" ]
}

# Whether a program runs here: its --version prints its name. Where it doesn't, one line says why.
runs_here() {
    printed=$("$1" --version 2>&1 </dev/null)
    case $printed in
    "$name "*) return 0 ;;
    esac
    why=$(echo "$printed" | sed -n '/./{s/^.*: //;p;q;}')
    case $why in
    "not found" | *"file not found") [ ! -f "$1" ] || why="its loader /lib64/ld-linux-x86-64.so.2 isn't there" ;;
    esac
    say "$1 can't be run here: ${why:-it printed nothing} (it needs $needs)"
    return 1
}

# Writes a program without its symbols, by the kit's own tool, so that every host makes the same bytes. The words: from, to.
strip_program() {
    kit=$(dirname "$(dirname "$(readlink -f "$(command -v rt)")")")
    tool=$(mktemp -d)
    ln -s "$kit/toolchain/bin/clang" "$tool/llvm-strip"
    "$tool/llvm-strip" --strip-all -o "$2" "$1"
    stripped=$?
    rm -rf "$tool"
    return "$stripped"
}

# Runs a program over the examples, and prints a line for each whose report or status isn't the one kept beside it. It fails where it
# can't keep a report.
wrong_examples() {
    report=$(temporary_file) || return 1
    while read -r image status; do
        ended=0
        (cd "$top" && "$1" -n "examples/$image.img") >"$report" || ended=$?
        [ "$ended" = "$status" ] || echo "$image: status $ended, expected $status"
        cmp -s "$report" "$top/examples/$image.report" || echo "$image: another report than examples/$image.report"
    done <"$top/examples/statuses"
    rm -f "$report"
}

# Runs ffs_find over the examples by the words of each line of examples/finds, and prints a line for each whose text or status isn't
# the one kept beside it. It fails where it can't keep a text.
wrong_finds() {
    found=$(temporary_file) || return 1
    while read -r text status words; do
        ended=0
        # shellcheck disable=SC2086
        (cd "$top" && "$1" $words) >"$found" || ended=$?
        [ "$ended" = "$status" ] || echo "ffs_find $words: status $ended, expected $status"
        cmp -s "$found" "$top/examples/$text" || echo "ffs_find $words: another text than examples/$text"
    done <"$top/examples/finds"
    rm -f "$found"
}

# The crates of programs and the libraries below them, one a line. The word: the programs, with a blank between them.
crates_below() {
    awk -F '[: ]+' -v programs="$1" '
        { for (i = 2; i <= NF; i++) below[$1] = below[$1] " " $i; is_here[$1] = 1 }
        function visit(crate,    names, n, i) {
            if (!is_here[crate] || is_done[crate]) return
            is_done[crate] = 1
            print crate
            n = split(below[crate], names, " ")
            for (i = 1; i <= n; i++) visit(names[i])
        }
        END {
            n = split(programs, roots, " ")
            for (i = 1; i <= n; i++) visit(roots[i])
        }' "$top/crates.txt"
}

# Stops a build that was interrupted: rt ends what it started, and no program is left that may be half written.
stop_build() {
    trap '' INT TERM HUP
    kill "$running" 2>/dev/null
    wait
    rm -f "$tree/crates/$name/out/$name"
    say "the build was stopped; the next one continues with what is proved"
    exit 8
}

# How many crates are checked at a time: one for each processor, where each has 4 GB of memory.
crates_at_once() {
    by_memory=$(($(sed -n 's/^MemAvailable: *\([0-9]*\) kB/\1/p' /proc/meminfo) / 4000000))
    echo "$by_memory $(nproc)" | awk '{ n = $1 < $2 ? $1 : $2; print n < 1 ? 1 : n }'
}

# Waits for the command that runs, and says how many crates are done each time that it is one more. It returns the command's
# status. The words: how many there are, the log.
wait_for() {
    shown=0
    while kill -0 "$running" 2>/dev/null; do
        crates_done=$(grep -c '^== [a-z]' "$2")
        if [ "$crates_done" -gt "$shown" ] && [ "$crates_done" -le "$1" ]; then
            shown=$crates_done
            say "crate $crates_done of $1 is done, after $((($(date +%s) - began) / 60)) minutes"
        fi
        sleep 1
    done
    wait "$running"
}

# Proves and builds the program of a tree, several crates at a time, each after those below it. The words: the tree's top, the log.
build() {
    tree=$1
    log=$2
    began=$(date +%s)
    total=$(crates_below "$name" | wc -l)
    at_once=$(crates_at_once)
    say "proving and building $total crates, $at_once at a time; this takes minutes"
    rm -f "$tree/crates/$name/out/$name"
    : >"$log"
    (cd "$tree/crates/$name" && exec rt all check --jobs "$at_once") >>"$log" 2>&1 </dev/null &
    running=$!
    trap stop_build INT TERM HUP
    if wait_for "$total" "$log"; then
        say "all crates are proved; now the program is linked"
        # The run that ends a build is given no image: it opens nothing, and what it prints goes to the log.
        (cd "$tree/crates/$name" && exec rt run -- --help) >>"$log" 2>&1 </dev/null &
        running=$!
        wait_for 0 "$log"
    fi
    trap - INT TERM HUP
    [ -x "$tree/crates/$name/out/$name" ]
}

# Sets `program` to the program of these sources that is there: the one that was built here where no source is newer, else the one of
# dist/ where it is of these sources. It is empty where there is neither. Where no program can run here, one line says why.
find_ready_program() {
    program=
    if ! is_built_for_here; then
        say "the program is built for $needs, and this is $(uname -sm)"
        return 1
    elif is_built; then
        program=$built
    elif is_kept; then
        program=$kept
    fi
    [ -z "$program" ] || runs_here "$program"
}

# The same; where there is none, it is proved and built first, with Rattle's command rt.
find_program() {
    find_ready_program || return 1
    [ -z "$program" ] || return 0
    if ! command -v rt >/dev/null; then
        say "dist/ has no program of these sources, and Rattle's command rt, which builds one, isn't there"
        return 1
    fi
    build_log=$top/crates/$name/out/build.log
    mkdir -p "$(dirname "$build_log")"
    if ! build "$top" "$build_log" || ! is_built; then
        say "there is no program: see $build_log, or run rt check in $top/crates/$name"
        return 1
    fi
    program=$built
    runs_here "$program"
}
