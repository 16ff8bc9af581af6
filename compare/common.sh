# What the scripts of compare/ share; they source it. POSIX sh.
#
# Variables that may be set from outside:
#   MASM_SRC         the folder that holds document 000 below src/ (default: ../shared/docs/src)
#   COMPARE_STANDIN  a folder with libhost.a, list_crate, list_straight and list_target, built for this
#                    machine, that take the place of the proved ones; compare/pairs wants compare_listings there
#   RATTLE_HOME      the kit's folder (default: found from `rt` on the PATH)

# shellcheck shell=sh disable=SC2034
here=$(cd "$(dirname "$0")" && pwd -P)
root=$(cd "$here/.." && pwd -P)
me=compare/$(basename "$0")
out=$root/target/compare

die() { printf '%s: %s\n' "$me" "$*" >&2; exit 2; }

# A tool or source that this machine lacks is no failure, but nobody may take it for a pass.
not_run() { printf '%s: NOT RUN: %s\n' "$me" "$*"; exit 0; }

need_rust() {
    command -v rustc >/dev/null 2>&1 || not_run "there is no rustc on the PATH"
    MASM_SRC=${MASM_SRC:-$root/../shared/docs/src}
    [ -f "$MASM_SRC/src/protected_mode/display/masm.rs" ] ||
        not_run "document 000 is not at $MASM_SRC (set MASM_SRC to the folder above its src/)"
    MASM_SRC=$(cd "$MASM_SRC" && pwd -P)
    export MASM_SRC
}

# rust FOLDER NAME KIND WORDS..: builds $here/FOLDER/NAME.rs unless what is there is newer.
rust() {
    folder=$1 name=$2 kind=$3
    shift 3
    case $kind in
    rlib) crate=$folder made=$into/lib$folder.rlib ;;
    *) crate=$name made=$into/$name ;;
    esac
    if [ -e "$made" ] && [ -z "$(find "$here/oracle" "$here/records" "$here/direct" "$here/harness" "$here/$folder" "$here/common.sh" "$MASM_SRC/src" -newer "$made" | head -n 1)" ]; then
        return
    fi
    set -- --edition 2021 -C opt-level=3 --crate-type "$kind" --crate-name "$crate" -o "$made" -L "dependency=$into" "$@"
    for lib in oracle records direct harness; do
        if [ "$lib" != "$crate" ] && [ -e "$into/lib$lib.rlib" ]; then
            set -- "$@" --extern "$lib=$into/lib$lib.rlib"
        fi
    done
    rustc "$@" "$here/$folder/$name.rs" || die "$folder/$name.rs does not build"
}

# The oracle and the harness, with Rust's own checks on, so that 000's assertions speak.
build_checked() {
    into=$out/checked
    mkdir -p "$into"
    rust oracle lib rlib -C debug-assertions=on
    rust records lib rlib -C debug-assertions=on
    rust harness lib rlib -C debug-assertions=on
    for name in "$@"; do rust harness "$name" bin; done
}

# The kit's compiler, linker and emulator; empty where there are none.
find_kit() {
    machine=$(uname -m)
    kit=${RATTLE_HOME:-}
    if [ -z "$kit" ] && command -v rt >/dev/null 2>&1; then
        kit=$(dirname "$(dirname "$(readlink -f "$(command -v rt)")")")
    fi
    tools=$kit/toolchain
    [ -d "$tools" ] || tools=
    emulator=
    if [ "$machine" != x86_64 ]; then
        if [ -x "$tools/bin/qemu-x86_64" ]; then
            emulator=$tools/bin/qemu-x86_64
        else
            emulator=$(command -v qemu-x86_64) || not_run "there is no emulator of x86-64 (qemu-x86_64)"
        fi
    fi
}

# wrapper NAME WORDS..: a script that runs WORDS, with what it is called with after them.
wrapper() {
    name=$1
    shift
    {
        printf '#!/bin/sh\nexec'
        for word in "$@"; do printf " '%s'" "$word"; done
        printf ' "$@"\n'
    } >"$bin/$name"
    chmod +x "$bin/$name"
}

# find_programs NAME..: scripts in the folder `bin` that run these programs, as rt runs them: under the kit's loader
# and C library, and under the emulator where it takes one. A stand-in's folder is beside it, so that two of them can
# be compared at a time.
find_programs() {
    bin=${COMPARE_STANDIN:-$out}/bin
    mkdir -p "$bin"
    [ -n "${COMPARE_STANDIN:-}" ] || find_kit
    for name in "$@"; do
        if [ -n "${COMPARE_STANDIN:-}" ]; then
            [ -f "$COMPARE_STANDIN/$name" ] || die "there is no $COMPARE_STANDIN/$name"
            wrapper "$name" "$COMPARE_STANDIN/$name"
            continue
        fi
        [ -f "$root/target/bin/$name" ] || die "there is no target/bin/$name: run commands/make . rt program $name"
        if [ -n "$tools" ]; then
            wrapper "$name" ${emulator:+"$emulator"} "$tools/lib/ld-linux-x86-64.so.2" --library-path "$tools/lib" "$root/target/bin/$name"
        else
            wrapper "$name" ${emulator:+"$emulator"} "$root/target/bin/$name"
        fi
    done
}

# The C host over the archive, and the listing programs.
build_host() {
    archive=$root/target/staticlib/libhost.a
    if [ -z "${COMPARE_STANDIN:-}" ] && [ ! -f "$archive" ]; then die "there is no target/staticlib/libhost.a: run commands/make . rt archive host"; fi
    find_programs list_crate list_straight list_target
    if [ -n "${COMPARE_STANDIN:-}" ]; then
        cc -O2 -fno-builtin -o "$COMPARE_STANDIN/host" "$here/host/driver.c" "$COMPARE_STANDIN/libhost.a" -lpthread -ldl -lm ||
            die "the host does not link to the stand-in"
        wrapper host "$COMPARE_STANDIN/host"
    else
        mkdir -p "$out/host"
        if [ "$machine" = x86_64 ] && command -v cc >/dev/null 2>&1; then
            cc -O2 -fno-builtin -o "$out/host/host" "$here/host/driver.c" "$archive" || die "the host does not link to the archive"
        else
            [ -x "$tools/bin/clang" ] || not_run "there is no compiler for x86-64 (the kit has one)"
            for name in driver bare_x86_64; do
                "$tools/bin/clang" --target=x86_64-unknown-linux-gnu -O2 -ffreestanding -fno-builtin -fno-stack-protector \
                    -c "$here/host/$name.c" -o "$out/host/$name.o" || die "host/$name.c does not compile"
            done
            "$tools/bin/ld.lld" -static -o "$out/host/host" "$out/host/driver.o" "$out/host/bare_x86_64.o" "$archive" ||
                die "the host does not link to the archive"
        fi
        wrapper host ${emulator:+"$emulator"} "$out/host/host"
    fi
    COMPARE_HOST=$bin/host
    COMPARE_LIST_CRATE=$bin/list_crate
    COMPARE_LIST_STRAIGHT=$bin/list_straight
    COMPARE_LIST_TARGET=$bin/list_target
    export COMPARE_HOST COMPARE_LIST_CRATE COMPARE_LIST_STRAIGHT COMPARE_LIST_TARGET
}

# standin FROM TO: builds the stand-in from a copy of compare/direct and compare/standin.
standin() {
    rustc --edition 2021 -C opt-level=3 --crate-type rlib --crate-name direct -o "$2/libdirect.rlib" "$1/direct/lib.rs" || return
    rustc --edition 2021 -C opt-level=3 -C panic=abort --crate-type staticlib --crate-name host -o "$2/libhost.a" \
        --extern "direct=$2/libdirect.rlib" "$1/standin/export.rs" || return
    mode=0
    for name in list_crate list_straight list_target; do
        LIST_MODE=$mode rustc --edition 2021 -C opt-level=3 --crate-name "$name" -o "$2/$name" \
            --extern "direct=$2/libdirect.rlib" "$1/standin/list.rs" || return
        mode=$((mode + 1))
    done
}

# apt_mirror: the Debian mirror that this machine's own apt sources name
apt_mirror() {
    cat /etc/apt/sources.list /etc/apt/sources.list.d/* 2>/dev/null |
        sed -n -e 's/^URIs:[[:space:]]*\([^[:space:]]*\).*/\1/p' -e 's/^deb[[:space:]]\{1,\}\(\[[^]]*\][[:space:]]*\)\{0,1\}\([^[:space:]]*\).*/\2/p' |
        grep -v security | head -n 1
}
