# shellcheck shell=bash disable=SC2154
# What the commands of this tree share; bash reads it. A command sets `me`, its name, and `root`, the tree, before.

die() { # WORDS..
    echo "$me: $*" >&2
    exit 2
}

rt=$(command -v rt) || die "the Rattle toolchain is missing: its command rt proves and builds"

# Programs and the archive are x86-64. They run as rt runs them: under the kit's loader and C library, and on another processor
# under the kit's emulator, where it has one.
tools=$(dirname "$("$rt" doc)")/toolchain
runner=("$tools/lib/ld-linux-x86-64.so.2" --library-path "$tools/lib")
if [ -x "$tools/bin/qemu-x86_64" ]; then runner=("$tools/bin/qemu-x86_64" "${runner[@]}"); fi
for name in $(compgen -e QEMU_); do unset "$name"; done # as rt does, for these change the emulator

archive=$root/target/staticlib/libexports.a

# Looks for a command, and installs Debian packages where it is missing.
need() { # COMMAND PACKAGE..
    local command=$1
    shift
    if command -v "$command" >/dev/null; then return 0; fi
    echo "$me: installing $*" >&2
    apt-get update -q >/dev/null 2>&1 || true
    apt-get install -q -y "$@" >/dev/null 2>&1 || die "$command is missing, and the packages $* cannot be installed"
}

# Whether a file is missing, or something in one of the paths is newer. No build reads a crate's must-fail, and rt writes its out.
stale() { # FILE PATH..
    local file=$1
    shift
    [ ! -e "$file" ] || [ -n "$(find "$@" \( -name must-fail -o -name out \) -prune -o -newer "$file" -print -quit)" ]
}

# How many crates of the tree the named ones stand on, themselves counted.
crates_below() { # NAME..
    awk -v names="$*" '
        function visit(name,    list, k) {
            if (!(name in below) || seen[name]++) return
            count++
            for (k = split(below[name], list, " "); k > 0; k--) visit(list[k])
        }
        { sub(/#.*/, "") }
        split($0, part, ":") == 2 { split(part[1], word, " "); below[word[1]] = part[2] }
        END { for (k = split(names, named, " "); k > 0; k--) visit(named[k]); print count + 0 }' "$root/crates.txt"
}

# Says how far a build is: on a terminal in one line that is written anew.
say_far() { # WORDS..
    if [ -t 2 ]; then printf '\r\033[K%s: %s' "$me" "$*" >&2; else echo "$me: $*" >&2; fi
}

end_far() {
    if [ -t 2 ]; then echo >&2; fi
}

# Reads what rt prints and says how many of so many crates are proved, whenever one is.
follow() { # ALL
    local proved=0 line
    say_far "proving $1 crates (some minutes where none is proved yet)"
    while IFS= read -r line; do
        if [[ $line =~ ^logic=proved ]]; then
            proved=$((proved + 1))
            say_far "$proved of $1 crates proved"
        fi
    done
}

# Proves a crate and what it stands on, and builds it by `rt lib` or `rt run`; a log has what rt printed. Then a file that this left
# in the crate's out is copied to a path. A build counts as made when it began, so that a source that changes meanwhile is newer.
build() { # COMMAND CRATE MADE PATH
    local log=$root/target/$2.log began all status
    if ! stale "$4" "$root/crates" "$root/crates.txt"; then return 0; fi
    began=$(date +@%s.%N)
    all=$(crates_below "$2")
    mkdir -p "$(dirname "$4")"
    (cd "$root/crates/$2" && exec "$rt" "$1" </dev/null 2>&1) | tee "$log" | follow "$all"
    status=${PIPESTATUS[0]}
    end_far
    [ "$status" -eq 0 ] || die "not proved: see ${log#"$root"/}"
    cp "$root/crates/$2/out/$3" "$4" || die "$2 is not built: see ${log#"$root"/}"
    touch -d "$began" "$4"
}

# The program of a crate, target/bin/NAME, built anew where a source has changed.
build_program() { # NAME
    build run "$1" "$1" "$root/target/bin/$1"
}

# The library's archive, built anew where a source has changed.
build_archive() {
    build lib exports_c libexports_c.a "$archive"
}

# Compiles C over include/tauwaage.h; the compiler's further words stand behind the program's name.
compile() { # PROGRAM WORDS..
    local program=$1 gcc=gcc
    shift
    if [ "$(uname -m)" = x86_64 ]; then
        need "$gcc" gcc libc6-dev
    else
        gcc=x86_64-linux-gnu-gcc
        need "$gcc" gcc-x86-64-linux-gnu libc6-dev-amd64-cross
    fi
    "$gcc" -Wall -Wextra -I "$root/include" -o "$program" "$@" || die "$(basename "$program") is not compiled"
}
