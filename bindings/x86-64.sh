# For the scripts that build and run programs over the library, which is for x86-64. Sets `cc`, a C compiler for
# x86-64, `runner`, the emulator to put in front of a program, empty on an x86-64 machine, and `called`, the name of what the
# Python module calls. STUMPGARRET_MACHINE is for tests: what machine this is taken for.
machine=${STUMPGARRET_MACHINE:-$(uname -m)}
cc=gcc
runner=
called=libstumpgarret.so
if [ "$machine" != x86_64 ]; then
    cc=x86_64-linux-gnu-gcc
    runner=qemu-x86_64
    called=stumpgarret-pipe
fi

# need COMMAND DEBIAN_PACKAGE..: ends the script if the command is missing.
need() {
    if ! command -v "$1" >/dev/null; then
        echo "$0: $1 is missing (Debian: ${*:2})" >&2
        exit 2
    fi
}

# The beginning of a test: sets `library` to the only argument, and sees that there is what every test needs.
begin() {
    if [ $# -ne 1 ]; then
        echo "usage: $0 STATIC_LIBRARY" >&2
        exit 2
    fi
    if [ ! -f "$1" ]; then
        echo "$0: $1 is missing; bindings/library builds the library" >&2
        exit 2
    fi
    library=$(realpath "$1")
    if [ -n "$runner" ]; then
        need "$cc" gcc-x86-64-linux-gnu libc6-dev-amd64-cross
        need "$runner" qemu-user
    else
        need "$cc" gcc
    fi
}
