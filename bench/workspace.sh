# Sourced by the measuring scripts of this folder: a program over copies of the crates that it needs, in a temporary
# repository that goes away at the end.
top=$(cd "$(dirname "$0")/.." && pwd)
work=$(mktemp -d)
trap 'rm -rf "$work"' EXIT

# make_workspace PROGRAM LIBRARIES CRATE..: bench/PROGRAM/main.rt.in with the libraries that it names, over these crates,
# lowest first
make_workspace() {
    program=$1
    libraries=$2
    shift 2
    mkdir -p "$work/crates/$program/src"
    cp "$top/bench/$program/main.rt.in" "$work/crates/$program/src/main.rt"
    for crate in "$@"; do
        cp -R "$top/crates/$crate" "$work/crates/$crate"
        grep "^$crate:" "$top/crates.txt" >> "$work/crates.txt"
    done
    echo "$program: $libraries" >> "$work/crates.txt"
    cp "$top/HANDLES" "$work/HANDLES"
}

# build_on FILE: proves, builds and runs the program once; what rt says is shown where it fails
build_on() {
    (cd "$work/crates/$program" && rt run -- "$1") > "$work/build.txt" 2>&1 || { cat "$work/build.txt"; exit 1; }
}

# measure FILE: runs the Python program on the standard input, with the file and the built program as its arguments
measure() {
    PYTHONPATH="$top/bench" PYTHONDONTWRITEBYTECODE=1 python3 - "$1" "$work/crates/$program/out/$program"
}
