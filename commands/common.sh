# What every command needs: messages, one build at a time, the program, its run and its verdict. POSIX sh.
# A command sources it, with its own name in `me` and the folder that it stands in in `root`. That folder
# is a checkout, where programs are built, or what ./install has put in place, where they are not.
#
# Statuses, of every command:
#   0  done
#   1  done, and the answer is the bad news: a listing that is cut or of an unknown version, or two that differ
#   2  trouble: called wrongly, not built, not read or not written
#
# Variables that may be set from outside:
#   RATTLE_HOME   the kit's folder (default: found from `rt` on the PATH)
#
# Descriptors: 3 the command's standard output, 8 the program, 9 the lock.

# shellcheck shell=sh disable=SC2154
set -u
LC_ALL=C
export LC_ALL
unset CDPATH
line_end='
'

say() { printf '%s: %s\n' "$me" "$*" >&2; }
trouble() { say "$@"; exit 2; }

# What is closed must not be opened by chance as something else.
if ! (: 5>&2); then exec 2>/dev/null; fi
is_open() { (: 5<&"$1") 2>/dev/null; }

is_checkout() { [ -f "$root/crates.txt" ]; }

# ---- the kit: its command rt, its loader and C library, and on another machine its emulator

find_kit() {
    machine=$(uname -m)
    rt=$(command -v rt) || rt=
    kit=${RATTLE_HOME:-}
    if [ -z "$kit" ] && [ -n "$rt" ]; then kit=$(dirname "$(dirname "$(readlink -f "$rt")")"); fi
    tools=$kit/toolchain
    if [ -z "$kit" ] || [ ! -d "$tools" ]; then tools=; fi
    loader=
    if [ -n "$tools" ] && [ -f "$tools/lib/ld-linux-x86-64.so.2" ]; then loader=$tools/lib/ld-linux-x86-64.so.2; fi
    emulator=
    if [ -n "$tools" ] && [ -x "$tools/bin/qemu-x86_64" ]; then
        emulator=$tools/bin/qemu-x86_64
    elif [ "$machine" != x86_64 ]; then
        emulator=$(command -v qemu-x86_64) || emulator=
    fi
}

# ---- one at a time: a lock on the checkout's folder. It makes no file, it stands on a checkout that cannot
# be written, and it is free as soon as its last holder has ended, however that ended.

# lock shared, to find a program; lock alone, to build.
lock() {
    if ! command -v flock >/dev/null 2>&1; then
        [ "$1" = shared ] || trouble "building needs flock, of util-linux, which is not on the PATH"
        return 0
    fi
    exec 9<"$root"
    how=-x
    [ "$1" != shared ] || how=-s
    for try in 1 2; do
        flock -n "$how" 9 2>/dev/null
        case $? in
        0) return ;;
        1) [ "$try" = 2 ] || sleep 1 ;;
        *)
            [ "$1" = shared ] || say "this file system has no locks: let nothing else build in this checkout"
            return 0
            ;;
        esac
    done
    say "waiting for another command that is building in this checkout"
    flock "$how" 9 || trouble "the lock of $root cannot be taken"
}

unlock() { exec 9<&-; }

# ---- a session of its own for what takes long, so that a signal to the command ends all that it started

# in_session WORDS..: their status. They read nothing. `goes_on` is set where a later call goes on from where this
# one was stopped.
goes_on=
in_session() {
    command -v setsid >/dev/null 2>&1 || trouble "building needs setsid, of util-linux, which is not on the PATH"
    session=
    for signal in HUP INT TERM; do
        # shellcheck disable=SC2064
        trap "stop_session $signal" "$signal"
    done
    setsid sh "$root/commands/session" $$ "$@" </dev/null &
    session=$!
    wait "$session"
    ended=$?
    trap - HUP INT TERM
    return "$ended"
}

stop_session() {
    trap '' HUP INT TERM
    if [ -n "$session" ]; then
        { kill -s TERM "$session"; wait "$session"; } 2>/dev/null
    fi
    say "stopped${goes_on:+; the next call goes on from here}"
    trap - HUP INT TERM
    kill -s "$1" $$
    exit 2
}

# ---- what is built

# The sources are newer than this file.
is_older() {
    [ -n "$(find "$root/crates" "$root/crates.txt" \( -name must-fail -o -name out \) -prune -o -newer "$1" -type f -print 2>/dev/null | head -n 1)" ]
}

# build FILE WHAT NAME: makes FILE, below target/, by commands/make, under the lock.
build() {
    made=$root/target/$1
    shift
    [ -n "$rt" ] || trouble "$(basename "$made") has to be built, and rt, the Rattle kit's command, is not on the PATH"
    mkdir -p "$root/target/log" 2>/dev/null
    [ -w "$root/target/log" ] || trouble "$(basename "$made") has to be built, and $root/target cannot be written"
    say "building $(basename "$made"): proving the crates that it is made of, which takes minutes the first time"
    if [ ! -f "$made" ]; then rm -f "$root/target/stamp/$2"; fi
    goes_on=yes
    in_session sh "$root/commands/build" "$me" "$root" "$rt" "$@" || trouble "$(basename "$made") was not built; target/log/build.out says why"
    [ -f "$made" ] || trouble "$(basename "$made") was not built, though rt says that it was; target/log/build.out has what it says"
    touch "$made"
}

# is_built FILE: it is there, below target/, and made of the sources as they are.
is_built() { [ -f "$root/target/$1" ] && ! is_older "$root/target/$1"; }

# open_built FILE: as descriptor 8. Whoever removes or replaces it then does no harm.
open_built() { { command exec 8<"$root/target/$1"; } 2>/dev/null; }

# need FILE WHAT NAME: FILE, below target/, is built, by commands/make where it was not, and is open.
need() {
    lock shared
    if ! is_built "$1"; then
        if [ -f "$root/target/$1" ] && [ ! -w "$root/target/$1" ]; then
            say "some sources are newer than target/$1, which cannot be rebuilt here: it is used as it is"
        else
            unlock
            lock alone
            # another command may have built it in the meantime
            is_built "$1" || build "$@"
        fi
    fi
    open_built "$1" || trouble "$root/target/$1 cannot be read"
    unlock
}

# need_program NAME: `program` is then the file to run.
need_program() {
    find_kit
    name=$1
    if is_checkout; then
        # there is a stamp of a program from when it is built until it is built anew; while there is one, nobody need
        # wait for what others build
        if [ ! -f "$root/target/stamp/$name" ] || ! is_built "bin/$name" || ! open_built "bin/$name"; then
            need "bin/$name" program "$name"
        fi
        program=/proc/self/fd/8
        [ -r "$program" ] || program=$root/target/bin/$name
    else
        program=$root/bin/$name
        [ -r "$program" ] || trouble "$program cannot be read"
    fi
    if [ "$machine" != x86_64 ] && [ -z "$emulator" ]; then
        trouble "$name is for x86-64, and this machine, $machine, has no emulator of it (qemu-x86_64)"
    fi
}

# ---- files, a run and its verdict

# is_readable FILE: or it says why not
is_readable() {
    if [ ! -e "$1" ]; then say "there is no file '$1'"
    elif [ -d "$1" ]; then say "'$1' is a directory"
    elif [ ! -r "$1" ]; then say "'$1' cannot be read"
    else return 0
    fi
    return 1
}

# take_first_byte: reads it from standard input, into `first_byte`, as three octal digits. Empty: there is none, or it
# cannot be read. run_program puts it back.
take_first_byte() { first_byte=$(dd bs=1 count=1 2>/dev/null | od -An -v -to1 | tr -d ' \n'); }

# fed WORDS..: WORDS, with `first_byte` before what is left of standard input, which only a listing of a known version
# is read for. Where that fails, or the program has ended before, the line `unread` stands on standard error.
fed() {
    {
        # shellcheck disable=SC2059
        printf "\\$first_byte"
        case $first_byte in 001 | 002) cat 2>/dev/null || echo unread >&2 ;; esac
    } | "$@"
}

# run_program IS_LAST WORDS..: `program` with WORDS, as rt runs it: under the kit's loader and C library where there
# is a kit. Where `first_byte` was taken from standard input it comes first. A program has no exit status of its own. What came of it is the last line on standard error that the
# function IS_LAST takes; a run without such a line failed. Other lines there are words of a loader or an emulator,
# and are passed on.
#   last    that line; empty where there is none
#   ended   the exit status, for what it is worth
run_program() {
    is_last=$1
    shift
    set -- "$program" "$@"
    if [ -n "$loader" ]; then set -- "$loader" --library-path "$tools/lib" "$@"; fi
    if [ -n "$emulator" ]; then set -- "$emulator" "$@"; fi
    if [ -n "${first_byte:-}" ]; then set -- fed "$@"; fi
    exec 3>&1
    # the x shows where the last line ends
    said=$("$@" 2>&1 >&3 3>&-; ended=$?; printf x; exit "$ended")
    ended=$?
    exec 3>&-
    last=
    left=$said
    while [ "$left" != x ] && [ -n "$left" ]; do
        line=${left%%"$line_end"*}
        if [ "$line" = "$left" ]; then
            # not ended by a newline, so not said to its end
            line=${line%x} left=
        else
            left=${left#*"$line_end"}
            # shellcheck disable=SC2034
            if "$is_last" "$line"; then last=$line; continue; fi
        fi
        printf '%s\n' "$line" >&2
    done
}

# why_failed: of a run without such a line
why_failed() {
    # 141: ended by the signal for a pipe that nobody reads
    if [ "$ended" -eq 141 ]; then echo 'standard output was closed before everything was written'
    else echo "the program failed (status $ended): lines may be missing"
    fi
}

# verdict_of LINE: takes the last line of a program that prints a listing apart, `list: N records, R refused; WHAT`;
# false where it is not such a line.
verdict_of() {
    case $1 in 'list: '*' records, '*' refused; '*) ;; *) return 1 ;; esac
    records=${1#list: }
    records=${records%% records, *}
    refused=${1#*" records, "}
    refused=${refused%%" refused; "*}
    what=${1#*" refused; "}
    case $records in '' | *[!0-9]*) return 1 ;; esac
    case $refused in '' | *[!0-9]*) return 1 ;; esac
    case $what in
    whole | 'unknown version' | 'standard input cannot be read' | 'standard output cannot be written') ;;
    'cut at byte '*) case ${what#cut at byte } in '' | *[!0-9]*) return 1 ;; esac ;;
    *) return 1 ;;
    esac
}

# is_verdict_or_unread LINE: it is such a line, which `verdict` then holds, or that of `fed`
is_verdict_or_unread() {
    case $1 in
    unread) unread=yes ;;
    *) verdict_of "$1" && verdict=$1 ;;
    esac
}

# print_listing: runs such a program from standard input to standard output.
#   records, refused   the numbers of its last line
#   what               its WHAT; empty where there is no such line
print_listing() {
    records='' refused='' what='' verdict='' unread=no
    run_program is_verdict_or_unread
    what=
    [ -z "$verdict" ] || verdict_of "$verdict"
    # the program took what failed for the end
    case $unread:$what in yes:whole | yes:cut*) what='standard input cannot be read' ;; esac
}
