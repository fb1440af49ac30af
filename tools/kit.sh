# C programs with the Rattle kit alone: its compiler, its linker and its C library. To be sourced.
# The kit brings no C headers; tests/c/headers has the few declarations that our programs use.

kit_root=$(cd "$(dirname "${BASH_SOURCE[0]}")/.." && pwd)

# Stops with a plain message where the kit is missing.
kit_find() {
    if ! command -v rt >/dev/null 2>&1; then
        echo "${0##*/}: the Rattle kit is missing: its command 'rt' is not on the PATH" >&2
        exit 1
    fi
    kit_tools=$(dirname "$(rt doc)")
}

# kit_cc PROGRAM FILE... : compiles C files with the flags in kit_flags, and links them and archives to a program.
kit_cc() {
    local program=$1 file object objects=()
    shift
    for file in "$@"; do
        if [ "${file%.c}" = "$file" ]; then
            objects+=("$file")
            continue
        fi
        object=$program.$(basename "$file" .c).o
        "$kit_tools/toolchain/bin/clang" --target=x86_64-unknown-linux-gnu -std=c11 -O2 -fPIE -ffp-contract=off -Wall -Wextra -Werror \
            -nostdinc -isystem "$kit_root/tests/c/headers" -I"$kit_root/include" ${kit_flags-} -c "$file" -o "$object"
        objects+=("$object")
    done
    "$kit_tools/bin/rattle-link" --target x86_64-unknown-linux-gnu --toolchain "$kit_tools/toolchain" -o "$program" "${objects[@]}"
}

# kit_run PROGRAM WORD... : runs it with the kit's C library.
kit_run() {
    local lib=$kit_tools/toolchain/lib
    "$lib/ld-linux-x86-64.so.2" --library-path "$lib" "$@"
}

# kit_archive : the path of the proved node's archive, which is proved and built where it is missing or a source is newer.
kit_archive() {
    local archive=$kit_root/crates/port/out/libport.a log
    if [ ! -e "$archive" ] || [ -n "$(find "$kit_root/crates" "$kit_root/crates.txt" -regex '.*/crates/[^/]*/out' -prune -o -newer "$archive" -print -quit)" ]; then
        if ! log=$(cd "$kit_root/crates/port" && rt lib 2>&1); then
            printf '%s\n' "$log" | tail -n 20 >&2
            echo "${0##*/}: the archive could not be built" >&2
            return 1
        fi
    fi
    echo "$archive"
}
