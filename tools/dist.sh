#!/bin/sh
# Packs a release: build/dozhemik-VERSION-x86_64-linux.tar.gz, the same bytes each time for one commit and what is built of it.
# usage: tools/dist.sh
# Takes what `make build library page` or `make test` built, and builds nothing. Wants git, GNU tar, gzip, python3, esbuild, and the Rattle
# kit, whose name and whose licences of crates go in. Where what is built is missing, or isn't of these sources, or the checkout
# isn't what is committed, that is said, nothing is packed and the status is 1.
set -eu
umask 022
export LC_ALL=C
cd "$(dirname "$0")/.."
version=$(cat VERSION)
name=dozhemik-$version-x86_64-linux
out=build/$name.tar.gz

fail() {
    echo "dist.sh: $*" >&2
    exit 1
}

# made TARGET FILE SOURCE..: a file that is built, and isn't older than these sources.
made() {
    target=$1 file=$2
    shift 2
    [ -f "$file" ] || fail "$file is missing: make $target"
    newer=$(find "$@" -newer "$file" -print -quit)
    [ -z "$newer" ] || fail "$file is older than $newer: make $target"
}

# proved TARGET FILE: a file that is built of these crates, as is written beside it.
proved() {
    [ -f "$2" ] || fail "$2 is missing: make $1"
    [ "$(cat "$2.sources" 2> /dev/null)" = "$sources" ] || fail "$2 isn't known to be of these crates: make $1"
}

rm -f "$out"
newest=$(sed -n 's/^## //p' CHANGELOG.md | head -n 1)
case $newest in
    "$version - "[0-9]*-[0-9]*-[0-9]*) ;;
    *) fail "CHANGELOG.md has first \"$newest\", and not version $version with the day of its release" ;;
esac
changes=$(git status --porcelain)
[ -z "$changes" ] || fail "the checkout isn't what is committed: $(printf '%s\n' "$changes" | head -n 1)"
sources=$(tools/sources.sh)
proved build build/twkb_tool
proved library build/bindings/libtwkb.so
parts=$(bindings/build.sh --sources)
for part in $parts; do
    for library in libtwkb.a libtwkb.so libtwkb.so.0; do
        made library "build/bindings/$library" "$part"
    done
done
proved page build/web/twkb_web.wasm
made page build/web/twkb_web.wasm bindings/web/build.sh bindings/prove.sh
[ -f build/dozhemik.html ] || fail "build/dozhemik.html is missing: make page"
commit=$(git rev-parse HEAD)
seconds=$(git log -1 --format=%ct)
kit=$(rt version)
# Kits of one logic accept the same proofs, so README names the logic, and the note of the release the kit.
logic=${kit#* }
grep -qF "\`$logic\`" README.md || fail "README.md names another logic than rt version does, which is $kit"
licences=$(dirname "$(rt doc)")/rattle

work=$(mktemp -d)
trap 'rm -rf "$work"' EXIT
to=$work/$name
python3 bindings/web/make_page.py build/web/twkb_web.wasm "$work/page" > /dev/null
cmp -s "$work/page" build/dozhemik.html || fail "build/dozhemik.html isn't what its parts make: make page"

# put PATH FILE..: a file by this path; several files, or folders, into this path, where it ends with a slash.
put() {
    path=$to/$1
    shift
    mkdir -p "${path%/*}"
    cp -R "$@" "$path"
}

put bin/twkb_tool build/twkb_tool
put share/man/man1/twkb_tool.1 docs/twkb_tool.1
put share/bash-completion/completions/twkb_tool completions/twkb_tool.bash
put share/zsh/site-functions/_twkb_tool completions/_twkb_tool
put include/twkb.h bindings/c/twkb.h
put lib/libtwkb.a build/bindings/libtwkb.a
put lib/libtwkb.so.0 build/bindings/libtwkb.so
ln -s libtwkb.so.0 "$to/lib/libtwkb.so"
put lib/pkgconfig/twkb.pc bindings/c/twkb.pc
put ./ CHANGELOG.md CONTRIBUTING.md NOTICES.md VERSION tools/install.sh tools/uninstall.sh build/dozhemik.html
put docs/ docs/*.md docs/*.svg docs/*.png
put examples/ examples/README.md examples/*.twkb examples/*.sh examples/*.py bindings/python/examples/serve.py
put examples/scripts/ examples/scripts/*.sh examples/scripts/*.py
# The JavaScript that calls the module, with all that it imports. Node takes these files for modules by the type.
put web/ build/web/twkb_web.wasm
echo '{ "type": "module" }' > "$to/web/package.json"
files=twkb.js
while [ -n "$files" ]; do
    more=
    for file in $files; do
        put web/ "bindings/web/page/$file"
        more="$more $(sed -n 's/.* from "\.\/\(.*\)";$/\1/p' "bindings/web/page/$file")"
    done
    files=$(echo $more)
done
for file in $(git ls-files bindings/rust); do
    [ "${file##*/}" = .gitignore ] || put "rust/${file#bindings/rust/}" "$file"
done
for crate in clap itoa smallvec thiserror; do
    for text in "$licences/$crate"/LICENSE*; do
        put "notices/$crate-${text##*/}" "$text"
    done
done
SOURCE_DATE_EPOCH=$seconds python3 tools/wheel.py build/bindings/libtwkb.so "$to" > "$work/wheel"
cat > "$to/PROVENANCE.md" <<TEXT
# What was proved

Dozhemik $version, of the commit \`$commit\`, by the kit \`$kit\`.

| Here | What it is |
|---|---|
| \`bin/twkb_tool\` | built by this kit from crates that it has proved; it builds no others |
| \`lib/libtwkb.a\`, \`lib/libtwkb.so.0\`, and the library in the wheel | built in the same way, except \`twkb_version()\`, which is C, and three functions of the kit that call the C library |
| \`web/twkb_web.wasm\`, also inside \`dozhemik.html\` | built in the same way, and then lowered to 32 bits and made shorter by \`wasm-opt\` |
| everything else | not proved: the header, the packages for Python, Rust and JavaScript, the rest of the page, the scripts |

\`docs/PROVED.md\` says what is proved of these, \`docs/EVIDENCE.md\` what is only tested, \`README.md\` what is trusted, and
\`docs/BINDINGS.md\` all this for callers and for the page. With the kit and a checkout of the commit, \`make test\` proves and tests
all of it again. The pages link only files that are here: where a page of the checkout links another file, its name is plain text.
\`SHA256SUMS\` has a sum of each file: \`sha256sum --check SHA256SUMS\`, as \`install.sh\` does.
TEXT
python3 tools/release_pages.py "$to" "$version"

chmod -R u=rwX,go=rX "$to"
(cd "$to" && find . -type f ! -name SHA256SUMS -printf '%P\0' | sort -z | xargs -0 sha256sum > "$work/sums")
cp "$work/sums" "$to/SHA256SUMS"
tar --create --directory="$work" --sort=name --owner=0 --group=0 --numeric-owner --mtime="@$seconds" --format=ustar "$name" > "$work/tar"
gzip -9 -n < "$work/tar" > "$work/gz"
cp "$work/gz" "$out"
echo "packed $out: $(wc -c < "$out") bytes, sha256 $(sha256sum "$out" | cut -d ' ' -f 1)"
