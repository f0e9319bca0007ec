# What tools/library, tools/levels and tools/targets have in common; sourced, not run. The kit lowers the proved library
# to one LLVM module, which its own clang compiles; the tools compile the same module with the words that this clang was
# given.
# shellcheck shell=bash disable=SC2034
library=vizhuthamen
made=target/staticlib

say() { echo "$(basename "$0"): $*"; }
die() {
    say "$*" >&2
    exit 1
}

need() { # need TOOL...
    local tool
    for tool; do
        command -v "$tool" >/dev/null || die "$tool is not there (gcc, binutils and the Rattle kit are needed)"
    done
}

need rt
kit=$(cd "$(dirname "$(rt doc)")" && pwd -P)
clang=$kit/toolchain/bin/clang
[ -x "$clang" ] || die "no clang at $clang: the kit has another form than this tool knows"

# clang_with FILE CHANGE [WORD...]: clang with the words of a file, one a line, changed by a sed script, and with more
# after them.
clang_with() {
    local words
    mapfile -t words < <(sed "$2" "$1")
    "$clang" "${words[@]}" "${@:3}"
}

# The functions of the module; all of them are the library's own, so that no other name can meet one of another level.
names_of() {
    local names other
    names=$(nm -g --defined-only "$1" | awk 'NF == 3 { print $3 }')
    if other=$(grep -v '^vz_' <<<"$names"); then die "the module has names that are none of the library's: $other"; fi
    echo "$names"
}
