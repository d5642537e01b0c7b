# To be sourced, in sh or bash. What is made here is for x86-64, on whatever machine:
#   machine_prepare run       sees to a way of running programs
#   machine_prepare compile   sees to a C compiler, too
#   compile_x86 PROGRAM FILE..   compiles and links C
#   run_x86 PROGRAM WORD..       runs a program
# On Debian machine_prepare installs the packages that are missing; it sets
#   CC_X86   the compiler
#   RUN_X86  the word to put before a program to run it; empty on x86-64

machine_failed() {
    echo "tests/machine.sh: $1" >&2
    return 1
}

machine_has() {
    command -v "$1" >/dev/null 2>&1
}

# gcc gives a full path only for a library that it finds, and a compiler that does not run gives
# nothing.
machine_has_library() {
    case $("$CC_X86" -print-file-name=libc.a 2>/dev/null) in
    /*) return 0 ;;
    *) return 1 ;;
    esac
}

# The packages that are missing for `run` or `compile`.
machine_missing() {
    if [ -n "$RUN_X86" ]; then
        machine_has "$RUN_X86" || echo qemu-user
        [ -e "$QEMU_LD_PREFIX/lib/libc.so.6" ] || echo libc6-amd64-cross
    fi
    [ "$1" = compile ] || return 0
    machine_has "$CC_X86" || echo "$machine_compiler"
    machine_has_library || echo "$machine_library"
}

machine_install() {
    machine_has apt-get || {
        machine_failed "no apt-get to install $* with"
        return 1
    }
    machine_as_root=
    if [ "$(id -u)" -ne 0 ]; then
        machine_has sudo || {
            machine_failed "neither root nor sudo to install $* with"
            return 1
        }
        machine_as_root=sudo
    fi
    $machine_as_root apt-get update -qq >/dev/null &&
        $machine_as_root env DEBIAN_FRONTEND=noninteractive \
            apt-get install -qq -y --no-install-recommends --no-upgrade "$@" >/dev/null ||
        machine_failed "could not install $*"
}

machine_prepare() {
    case $(uname -m) in
    x86_64)
        CC_X86=gcc
        RUN_X86=
        machine_compiler=gcc
        machine_library=libc6-dev
        ;;
    aarch64)
        CC_X86=x86_64-linux-gnu-gcc
        RUN_X86=qemu-x86_64
        # Where the emulator finds the C library of a program that is not linked to it.
        export QEMU_LD_PREFIX=/usr/x86_64-linux-gnu
        machine_compiler=gcc-x86-64-linux-gnu
        machine_library=libc6-dev-amd64-cross
        ;;
    *)
        machine_failed "only x86_64 and aarch64 are served, not $(uname -m)"
        return 1
        ;;
    esac
    machine_packages=$(machine_missing "$1")
    [ -n "$machine_packages" ] || return 0
    # Unquoted: one word for each package.
    machine_install $machine_packages || return 1
    machine_packages=$(machine_missing "$1")
    [ -z "$machine_packages" ] || machine_failed "installed, yet not found: $machine_packages"
}

compile_x86() {
    mkdir -p "$(dirname "$1")" &&
        "$CC_X86" -std=c11 -O2 -Wall -Wextra -Wconversion -Werror -static -o "$@"
}

run_x86() {
    ${RUN_X86:+"$RUN_X86"} "$@"
}
