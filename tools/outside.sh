# Sourced by the scripts that build, link or run what lies outside the crates. What Rattle builds is x86-64; on a machine of
# another kind it is linked by a cross compiler and run under an emulator, and these functions hide which. The kit itself is x86-64
# too: on such a machine its prover starts only where the system hands x86-64 programs to an emulator, and `proving` says where not.

root=$(cd "$(dirname "${BASH_SOURCE[0]}")/.." && pwd)
kit=$(dirname "$(dirname "$(readlink -f "$(command -v rt)")")")
native=$([ "$(uname -m)" = x86_64 ] && echo yes || echo no)

# Debian packages that a script needs, installed where they are missing.
need() { # PACKAGE..
    local missing=() log=$root/target/apt.log
    mkdir -p "$root/target"
    for package in "$@"; do
        dpkg-query -W -f '${Status}' "$package" 2>/dev/null | grep -q 'ok installed' || missing+=("$package")
    done
    [ ${#missing[@]} -eq 0 ] && return
    { apt-get update && DEBIAN_FRONTEND=noninteractive apt-get install -y --no-install-recommends "${missing[@]}"; } >"$log" 2>&1 ||
        { tail -n 5 "$log" >&2; return 1; }
}

# What starts a proved program, as words before its path. The kit has no emulator (an older one had): Debian's runs the kit's loader.
starter=()
[ $native = yes ] || starter=(qemu-x86_64 "$kit/toolchain/lib/ld-linux-x86-64.so.2" --library-path "$kit/toolchain/lib")

# Where a proved program of the repository stands.
place_of() { # NAME
    echo "$root/crates/$1/out/$1"
}

# A proved program of the repository.
proved() { # NAME ARGS..
    "${starter[@]}" "$(place_of "$1")" "${@:2}"
}

# A C compiler for x86-64; its programs are linked statically, since a dynamic one does not start under the emulator.
x86_cc() { # ARGS..
    if [ $native = yes ]; then
        cc -static "$@"
    else
        need gcc-x86-64-linux-gnu libc6-dev-amd64-cross && x86_64-linux-gnu-gcc -static "$@"
    fi
}

# The Rust compiler for x86-64. Debian's has the standard library for it; the installed one may not.
x86_rustc() { # ARGS..
    if [ $native = yes ]; then
        rustc "$@"
    else
        dpkg --add-architecture amd64 && need rustc libstd-rust-dev:amd64 gcc-x86-64-linux-gnu libc6-dev-amd64-cross &&
            /usr/bin/rustc --target x86_64-unknown-linux-gnu -C linker=x86_64-linux-gnu-gcc "$@"
    fi
}

# The same compiler for this machine, for what links nothing that Rattle made: an emulator would only slow it down.
own_rustc() { # ARGS..
    if [ $native = yes ]; then
        rustc "$@"
    else
        need rustc && /usr/bin/rustc "$@"
    fi
}

# A program for x86-64.
x86() { # PROGRAM ARGS..
    if [ $native = yes ]; then
        "$@"
    else
        need qemu-user && qemu-x86_64 -L / "$@"
    fi
}

# Whether what Rattle made is there, and nothing that the crates are proved from has changed since, nor the kit.
up_to_date() { # PATH
    local parts=("$root"/crates/*/src "$root"/crates/*/specs "$root"/crates/*/proofs)
    mkdir -p "$root/target"
    [ -e "$1" ] && [ -z "$(find "${parts[@]}" "$root/crates.txt" "$kit/KIT-ID" -newer "$1" -print -quit)" ]
}

# The crates that one names.
named_by() { # NAME
    sed -nE "s/^$1( [^:]*)?://p" "$root/crates.txt"
}

# The crates of the repository that one rests on, and itself.
reached() { # NAME
    local dependency
    grep -qE "^$1( [^:]*)?:" "$root/crates.txt" || return 0
    for dependency in $(named_by "$1"); do reached "$dependency"; done
    echo "$1"
}

# What rt says; what a program prints goes to a file.
rt_says() { # FILE lib|run NAME
    local crate=$root/crates/$3 given=/dev/null arguments=()
    cd "$crate" || return
    case $2 in
        lib) rt lib 2>&1 ;;
        run)
            [ ! -f stdin ] || given=stdin
            [ ! -f args ] || mapfile -t arguments <args
            rt run -- "${arguments[@]}" <$given 2>&1 >"$1"
            ;;
    esac
}

# Has rt prove a crate and make what it gives, and says on standard error crate by crate how far it is: from nothing that takes minutes.
proving() { # lib|run NAME
    local log=$root/target/$1-$2.log all line crate=
    mkdir -p "$root/target"
    "$kit/bin/rattle" --version >/dev/null 2>&1 || { echo "the prover of $kit, an x86-64 program, does not start here" >&2; return 1; }
    all=$(reached "$2" | sort -u | wc -l)
    echo "proving $2 and what it rests on, $all crates; the first time takes some minutes" >&2
    (rt_says "$log.printed" "$1" "$2") | tee "$log" | while read -r line; do
        if [[ $line =~ ^crate\ ([a-z_]+): ]]; then
            crate=${BASH_REMATCH[1]}
        elif [[ $line =~ ^logic=proved\ functions=([0-9]+) ]]; then
            echo "$crate proved, ${BASH_REMATCH[1]} functions" >&2
        fi
    done
    [ "${PIPESTATUS[0]}" -eq 0 ] || { tail -n 5 "$log" >&2; return 1; }
}

# A program's proved build, made anew where it has to be (`rt ci` leaves it there). To build one, rt runs it: on what stands beside its
# src/, and it must print what stands there.
program() { # NAME
    local made
    made=$(place_of "$1")
    [ $native = yes ] || need qemu-user
    up_to_date "$made" && return
    proving run "$1" || return
    cmp -s "$root/target/run-$1.log.printed" "$root/crates/$1/stdout" && return
    rm -f "$made"
    echo "$1 prints something else than crates/$1/stdout" >&2
    return 1
}

# Whether the libraries below a crate are those that `rt ci` proved and left in out/, of the files as they are. rt lib takes none of
# these, since they have no stamp, and proves each again.
left_by_ci() { # NAME
    local name at
    for name in $(reached "$1" | sort -u | grep -vx "$1"); do
        at=$root/crates/$name/out/rlib
        [ ! -e "$at/stamp" ] && up_to_date "$at/$name.rlib" || return
    done
}

# A static library, over the proved libraries that stand in out/, for x86-64 or by --target for another machine. Rattle makes it only
# where the crate itself is proved, and proves it here.
static_library() { # NAME FILE FLAGS..
    local name words log=$root/target/static-$1.log
    words=(--crate-name "$1" src/lib.rt --crate-type staticlib --links "$1=" --extern "std=$kit/rlibs/std.rlib")
    for name in $(named_by "$1"); do words+=(--extern "$name=$root/crates/$name/out/rlib/$name.rlib"); done
    for name in $(reached "$1" | sort -u); do words+=(-L "dependency=$root/crates/$name/out/rlib"); done
    words+=(-L "dependency=$kit/rlibs" --antt-project "$kit/rattle/logic/antt-project.json" --logic-built "$kit/logic_built")
    mkdir -p "$root/target" "$root/crates/$1/out"
    (cd "$root/crates/$1" && "$kit/bin/rattle" build "${words[@]}" --toolchain "$kit/toolchain" --backend llvm "${@:3}" -o "$2") \
        >"$log" 2>&1 || { tail -n 5 "$log" >&2; return 1; }
}

# The crate of an archive. A crate is a library or a static library, so that card_c's functions are exported by another; what C links
# keeps its name.
crate_of() { # card_c|search_c
    if [ "$1" = card_c ]; then echo card_c_c; else echo "$1"; fi
}

# The archive of C functions, target/staticlib/libNAME.a, made anew where it has to be; prints its path.
archive() { # card_c|search_c
    local made=$root/target/staticlib/lib$1.a crate
    crate=$(crate_of "$1")
    if ! up_to_date "$made"; then
        { left_by_ci "$crate" && static_library "$crate" "out/lib$crate.a"; } || proving lib "$crate" || return
        mkdir -p "${made%/*}" && cp "$root/crates/$crate/out/lib$crate.a" "$made.new" && mv "$made.new" "$made" || return
    fi
    echo "$made"
}
