# asmc, a MASM-compatible assembler, for the scripts that ask it; they source this after common.sh. POSIX sh.
# It comes from the package asmc-linux of Debian's trixie, for x86-64, with the C library of that suite, from the mirror that this
# machine's own apt sources name; into target/compare/judge alone, where compare/judge has it too. Nothing is installed.

# shellcheck shell=sh disable=SC2154
fetch_asmc() {
    for tool in apt-get dpkg-deb; do
        command -v "$tool" >/dev/null 2>&1 || { why="there is no $tool"; return 1; }
    done
    keys=/usr/share/keyrings/debian-archive-keyring.gpg
    [ -f "$keys" ] || { why="Debian's keyring is not installed"; return 1; }
    mirror=$(apt_mirror)
    [ -n "$mirror" ] || { why="this machine's apt sources name no mirror"; return 1; }
    apt=$out/judge/apt
    mkdir -p "$apt/state/lists/partial" "$apt/cache/archives/partial" "$apt/debs" "$files"
    : >"$apt/state/status"
    printf 'deb [arch=amd64 signed-by=%s] %s trixie main\n' "$keys" "$mirror" >"$apt/sources.list"
    set -- -q -o Dir::Etc::sourcelist="$apt/sources.list" -o Dir::Etc::sourceparts=- -o Dir::State="$apt/state" \
        -o Dir::State::status="$apt/state/status" -o Dir::Cache="$apt/cache" -o APT::Architectures::=amd64 \
        -o APT::Sandbox::User="$(id -un)"
    (apt-get "$@" update && cd "$apt/debs" && apt-get "$@" download asmc-linux:amd64 libc6:amd64) >"$out/judge/said" 2>&1 ||
        { why=$(tail -n 1 "$out/judge/said"); return 1; }
    for deb in "$apt"/debs/*.deb; do dpkg-deb -x "$deb" "$files" || { why="$deb cannot be unpacked"; return 1; }; done
}

# find_asmc FOLDER: makes FOLDER/asmc, a script that runs asmc under the emulator where it takes one
find_asmc() {
    bin=$1 files=$out/judge/files why=
    mkdir -p "$bin"
    find_kit
    [ -x "$files/usr/bin/asmc" ] || fetch_asmc || not_run "there is no asmc: $why"
    libraries=$files/usr/lib/x86_64-linux-gnu
    wrapper asmc ${emulator:+"$emulator"} "$libraries/ld-linux-x86-64.so.2" --library-path "$libraries" "$files/usr/bin/asmc" -q -bin
}
