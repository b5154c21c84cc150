# A scratch repository with this repository's crates and one benchmark's program, for the benchmarks to
# source. RT names the toolchain's command. The sources of the programs lie here under names with .txt, since
# they are no crates of this repository.
rt=${RT:-rt}
top=$(cd "$(dirname "$0")/../.." && pwd)
scratch=$(mktemp -d)
trap 'rm -rf "$scratch"' EXIT

# scratch_program FOLDER NAME "CRATES": the program of bench/FOLDER as the crate NAME over these crates;
# leaves the shell in its folder. A crate that was built in this clone, and is as it was then, need not be
# proved again: what was built is taken over.
scratch_program() {
    git -C "$top" archive HEAD HANDLES crates.txt crates | tar -x -C "$scratch"
    (cd "$top" && find crates -path '*/out/rlib' -prune -print0 | tar -c --null -T -) | tar -x -C "$scratch"
    cp -r "$top/bench/$1/program" "$scratch/crates/$2"
    find "$scratch/crates/$2" -name '*.txt' | while read -r file; do mv "$file" "${file%.txt}"; done
    echo "$2: $3" >> "$scratch/crates.txt"
    git init -q "$scratch"
    cd "$scratch/crates/$2"
}

# scratch_run PATTERN: proves, builds and runs the program, and prints the lines of its output that have the
# pattern. Where it is not proved, what was said of that.
scratch_run() {
    if ! "$rt" run > "$scratch/told" 2>&1; then
        grep -v -e ': proved' -e 'modules loaded' "$scratch/told" | tail -40
        exit 1
    fi
    grep -e "$1" "$scratch/told"
}

# keep_program NAME: leaves the program where it can be run again.
keep_program() {
    mkdir -p "$top/build"
    cp "out/$1" "$top/build/$1"
    echo "The program is at build/$1."
}
