# For the other scripts, which source it: --help prints the comment at a script's start, and work goes on in the
# repository's root. rust/nd110/archive names the Rattle crate that the static library is made of, for the Rust
# workspace too.
if [ "${1:-}" = --help ]; then
    sed -n '2,/^[^#]/s/^# \{0,1\}//p' "$0"
    exit
fi
here=$PWD
root=$(cd "$(dirname "${BASH_SOURCE[0]}")/.." && pwd)
cd "$root"
programs=$root/rust/target/release
crate=$(cat rust/nd110/archive)
archive=crates/$crate/out/lib$crate.a
turn=crates/turn/out/turn

# is_old FILE: it is not there, or what it is made of is newer: crates.txt, or in a crate a file or a folder but out.
is_old() {
    [ ! -f "$1" ] || [ crates.txt -nt "$1" ] ||
        [ -n "$(find crates -mindepth 2 -name out -prune -o -newer "$1" -print -quit)" ]
}

# The static library, proved and built unless it is newer than every Rattle file. `rt ci` takes it away.
need_archive() {
    if is_old "$archive"; then
        (cd "crates/$crate" && rt lib) >&2
    fi
}

# The program turn, as `rt ci` leaves it, or else proved and built.
need_turn() {
    if is_old "$turn"; then
        (cd crates/turn && rt run) <crates/turn/stdin >/dev/null
    fi
}

# cargo on the Rust workspace: cargo_on COMMAND WORD..
cargo_on() {
    cargo "$1" --quiet --frozen --manifest-path rust/Cargo.toml "${@:2}"
}

# build NAME..: programs of the Rust workspace, to $programs.
build() {
    cargo_on build --release "${@/#/--bin=}"
}
