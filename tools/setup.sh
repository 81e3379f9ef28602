#!/bin/sh
# Installs Debian's packages for what builds and tests need beside the Rattle kit, as far as it is missing. usage: tools/setup.sh
# Says first what it installs. Only apt-get needs root: another user runs it by sudo. If there is no apt-get, or something is still
# missing at the end, that is said and the status is 1.
set -eu

# Each line has a package, and a command that succeeds if what the package brings is here.
needed() {
    cat << 'END'
git                 git --version
gcc                 gcc --version
libc6-dev           echo '#include <stdlib.h>' | gcc -E -
g++                 g++ --version
python3             python3 --version
python3-pip         python3 -m pip --version
python3-numpy       python3 -c 'import numpy' || /usr/bin/python3 -c 'import numpy'
python3-pandas      python3 -c 'import pandas' || /usr/bin/python3 -c 'import pandas'
python3-distributed python3 -c 'import distributed' || /usr/bin/python3 -c 'import distributed'
python3-fsspec      python3 -c 'import fsspec' || /usr/bin/python3 -c 'import fsspec'
mypy                mypy --version
cargo               cargo --version
rust-clippy         command -v cargo-clippy
pkg-config          pkg-config --version
nodejs              node --version
binaryen            wasm-opt --version
esbuild             esbuild --version
chromium            command -v chromium
firefox-esr         command -v firefox-esr
postgresql-postgis  psql --version && find /usr/share/postgresql -name postgis.control | grep .
xxd                 command -v xxd
parallel            parallel --version
zsh                 zsh --version
man-db              man --version
mandoc              command -v mandoc
valgrind            valgrind --version
gdb                 gdb --version
END
}

missing() {
    needed | while read -r package check; do
        sh -c "$check" > /dev/null 2>&1 < /dev/null || echo "$package"
    done
}

as_root() {
    if [ "$(id -u)" = 0 ]; then "$@"; else sudo "$@"; fi
}

packages=$(missing | xargs)
if [ -z "$packages" ]; then
    echo "Nothing is missing."
    exit 0
fi
command -v apt-get > /dev/null || {
    echo "setup.sh: there is no apt-get to install what is missing, which Debian has in the packages $packages" >&2
    exit 1
}
[ "$(id -u)" = 0 ] || command -v sudo > /dev/null || {
    echo "setup.sh: root has to install what is missing: apt-get install --no-install-recommends $packages" >&2
    exit 1
}
echo "Installing by apt-get: $packages"
options="-o Acquire::Retries=3 -o DPkg::Lock::Timeout=300"
# Without new lists the packages may still be found.
as_root apt-get $options update || echo "setup.sh: apt-get update failed" >&2
as_root env DEBIAN_FRONTEND=noninteractive apt-get $options install --yes --no-install-recommends $packages || {
    echo "setup.sh: apt-get couldn't install them" >&2
    exit 1
}
packages=$(missing | xargs)
[ -z "$packages" ] || {
    echo "setup.sh: installed, and still not found: $packages" >&2
    exit 1
}
