# What the tests of this folder share: which tools are missing, and a folder of their own for what they write.
missing=()
packages=

need_tool() { # TOOL PACKAGE
    command -v "$1" > /dev/null && return
    missing+=("$1 (Debian's package $2)")
    packages+=" $2"
}

# A Python that has libnbd's module: the first on the path, or Debian's own.
need_nbd() {
    for python in python3 /usr/bin/python3; do
        "$python" -c 'import nbd' 2> /dev/null && return
    done
    missing+=("python3 with libnbd's module nbd, which nbdsh uses too (Debian's packages libnbd-bin and python3-libnbd)")
    packages+=" libnbd-bin python3-libnbd"
}

stop_if_missing() {
    [ ${#missing[@]} -eq 0 ] && return
    printf 'missing: %s\n' "${missing[@]}" >&2
    [ -z "$packages" ] || echo "on Debian: apt-get install$packages" >&2
    exit 2
}

# A folder in memory where there is one, removed at the end.
work_folder() {
    local base=${TMPDIR:-/tmp}
    [ -d /dev/shm ] && [ -w /dev/shm ] && base=/dev/shm
    work=$(mktemp -d "$base/peers.XXXXXX") || exit 2
    trap 'rm -rf "$work"' EXIT
    trap 'exit 130' INT
    trap 'exit 143' TERM
}
