# Sourced, at the repository's root, by bin/console, bin/formula, tests/differential/run, tests/stack.sh, bench/run and bench/native: builds a C program against the library.
#   prove_archive                           proves and builds the archive where it is not up to date
#   choose_library standin|archive|native   sets compiler, library and runner; if it cannot be, says so and ends with 2
#   build PROGRAM SOURCE...                 builds and leaves it at $out/PROGRAM, to be run by: $runner $out/PROGRAM
# The archive is x86-64, and cc links it on such a machine. `native` is what bench/native has built. Set from outside if wanted: ARCHIVE; CC,
# the native compiler; CFLAGS; STANDIN_CONTROLLER and STANDIN_FORMULA, a controller and a reader of formulas for the stand-in.
archive=${ARCHIVE:-target/staticlib/liblanwezik.a}
native=target/native/liblanwezik.a
flags="-std=c99 -Wall -Wextra -Wpedantic -Werror ${CFLAGS:--O3} -Iinclude -Ioracle"
runner=

give_up() {
    echo "$1" >&2
    exit 2
}

# Sets kit: the folder of the Rattle kit whose rt is on the PATH.
find_kit() {
    rt=$(command -v rt) || give_up "no rt on the PATH: the Rattle kit is needed"
    kit=${RATTLE_HOME:-$(cd "$(dirname "$(readlink -f "$rt")")/.." && pwd -P)}
}

# The stand-in over a controller whose names are not the oracle's.
build_standin() {
    renamed=
    for name in accept fresh scan take read_formula; do
        renamed="$renamed -Doracle_$name=standin_$name"
    done
    $compiler $flags $renamed -c -o "$out/standin.o" tests/differential/standin.c
    $compiler $flags $renamed -c -o "$out/standin_controller.o" "${STANDIN_CONTROLLER:-oracle/controller.c}"
    $compiler $flags $renamed -c -o "$out/standin_formula.o" "${STANDIN_FORMULA:-oracle/formula.c}"
    library="$out/standin.o $out/standin_controller.o $out/standin_formula.o"
}

# Proves and builds the archive, but for one that was said from outside. What else is missing is said first.
prove_archive() {
    [ -z "${ARCHIVE:-}" ] || return 0
    [ ! -e "$archive" ] || [ -n "$(find crates.txt crates -path '*/out' -prune -o -type f -newer "$archive" -print | head -n 1)" ] || return 0
    find_kit
    echo "proving and building the library, which may take some minutes" >&2
    said=$(cd crates/lanwezik_c && rt lib 2>&1 </dev/null) || { printf '%s\n' "$said" >&2; exit 2; }
    mkdir -p "$(dirname "$archive")"
    cp crates/lanwezik_c/out/liblanwezik_c.a "$archive"
}

choose_library() {
    out=target/$1_c
    mkdir -p "$out"
    compiler=${CC:-cc}
    case $1 in
    standin)
        build_standin
        ;;
    native)
        [ -e "$native" ] || give_up "no library at $native: bench/native builds it"
        library=$native
        ;;
    archive)
        [ "$(uname -m)" = x86_64 ] || give_up "the library is x86-64, and this machine is not"
        [ -e "$archive" ] || prove_archive
        library=$archive
        ;;
    esac
}

build() {
    program=$1
    shift
    $compiler $flags -o "$out/$program" "$@" $library
}
