# shellcheck shell=sh disable=SC2154
# Sourced by second/run, bench/run and tests/reading: builds C programs with the kit's own clang and C library, for x86-64, and runs them
# there. Nothing of the machine but sh and its usual commands is used.
# POSIX sh. Needs $root, the top of the repository; gives kit_build and kit_exec.

kit_say() { printf '%s: %s\n' "${0##*/}" "$*" >&2; }

kit_home=${RATTLE_HOME:-}
if [ -z "$kit_home" ]; then
    rt=$(command -v rt) || { kit_say "the Rattle kit is needed: there is no command 'rt' (or set RATTLE_HOME)"; exit 2; }
    while [ -L "$rt" ]; do
        link=$(readlink "$rt")
        case $link in /*) rt=$link ;; *) rt=$(dirname "$rt")/$link ;; esac
    done
    kit_home=$(cd "$(dirname "$rt")/.." && pwd -P)
fi
kit_tools=$kit_home/toolchain
[ "$(uname -m)" = x86_64 ] && [ -x "$kit_tools/bin/clang" ] || { kit_say "the kit at $kit_home has no compiler for this machine, $(uname -m)"; exit 2; }

# Compiles each C file at -O3 and links them, and what else is named, to the program OUT. The words before -- go to the
# compiler. The kit has no C headers; second/kit has the declarations that are used.
kit_build() { # OUT [WORDS...] -- FILES...
    out=$1
    shift
    words='' objects=''
    while [ "$1" != -- ]; do
        words="$words $1"
        shift
    done
    shift
    mkdir -p "$out.o"
    for file in "$@"; do
        case $file in
        *.c)
            object=$out.o/$(basename "$file" .c).o
            # shellcheck disable=SC2086
            "$kit_tools/bin/clang" --target=x86_64-unknown-linux-gnu -std=c99 -O3 -fPIE -Wall -Wextra -Werror -nostdinc \
                -isystem "$root/second/kit" $words -c "$file" -o "$object" || return 2
            ;;
        *) object=$file ;;
        esac
        objects="$objects
$object"
    done
    lib=$kit_tools/lib
    oldifs=$IFS
    IFS='
'
    # shellcheck disable=SC2086
    set -- $objects
    IFS=$oldifs
    "$kit_tools/bin/ld.lld" -m elf_x86_64 -pie -z relro -z now -z noexecstack --gc-sections \
        --dynamic-linker /lib64/ld-linux-x86-64.so.2 -o "$out" "$lib/Scrt1.o" "$lib/crti.o" "$lib/crtbeginS.o" "$@" \
        "$lib/libm.so.6" "$lib/libc.so.6" "$lib/libc_nonshared.a" --as-needed "$lib/ld-linux-x86-64.so.2" "$lib/libgcc.a" \
        "$lib/libgcc_s.so.1" "$lib/crtendS.o" "$lib/crtn.o" || return 2
}

# Runs a program under the kit's loader and C library, in place of this shell.
kit_exec() { # PROGRAM [WORDS...]
    exec "$kit_tools/lib/ld-linux-x86-64.so.2" --library-path "$kit_tools/lib" "$@"
}
