#!/bin/sh
# Installs what this folder holds: the program with its manual page and completions, and the library with its header and its
# pkg-config file. usage: install.sh PREFIX   (/usr/local, say)
# Needs only a shell and coreutils. The files are first compared with SHA256SUMS: if one differs, nothing is installed and the exit
# status is 1. It is 2 if PREFIX is missing. If the processor isn't x86-64-v2, the files are installed, and standard error says what
# the processor lacks; if nothing says what it has, that is printed. CPUINFO names a file to read instead of /proc/cpuinfo, for a
# machine that isn't this one.
set -eu
here=$(cd "$(dirname "$0")" && pwd)
if [ $# -ne 1 ] || [ -z "$1" ]; then
    echo "usage: install.sh PREFIX" >&2
    exit 2
fi
into=$1

(cd "$here" && sha256sum --check --strict --quiet SHA256SUMS) || {
    echo "install.sh: nothing is installed, since these files aren't those that were packed" >&2
    exit 1
}

# put RIGHTS PATH: installs a file of this folder at its path below PREFIX.
put() {
    install -d "$into/$(dirname "$2")"
    install -m "$1" "$here/$2" "$into/$2"
}

# The parts of x86-64-v2 that the processor lacks. The status is 1 if no line says what it has.
lacked() {
    while IFS= read -r line; do
        case $line in
            flags*:*)
                for part in cx16 lahf_lm pni popcnt sse4_1 sse4_2 ssse3; do
                    case "$line " in
                        *" $part "*) ;;
                        *) printf ' %s' "$part" ;;
                    esac
                done
                return
                ;;
        esac
    done
    return 1
}

put 755 bin/twkb_tool
put 644 share/man/man1/twkb_tool.1
put 644 share/bash-completion/completions/twkb_tool
put 644 share/zsh/site-functions/_twkb_tool
put 644 include/twkb.h
put 644 lib/libtwkb.a
put 644 lib/libtwkb.so.0
ln -sf libtwkb.so.0 "$into/lib/libtwkb.so"
put 644 lib/pkgconfig/twkb.pc
echo "installed below $into. Where $into/lib is one of the loader's folders, ldconfig tells it of libtwkb.so.0."
cpuinfo=${CPUINFO:-/proc/cpuinfo}
if lacks=$( { lacked < "$cpuinfo"; } 2>&-); then
    [ -z "$lacks" ] || echo "install.sh: the processor isn't x86-64-v2, and can't run what is installed: it lacks$lacks" >&2
else
    echo "The processor isn't checked: $cpuinfo doesn't say what it has."
fi
