#!/bin/sh
# Makes dist/polylab-VERSION-amd64.tar.gz, a Debian package beside it where dpkg-deb is installed, and their checksums; `make dist` calls
# it. NOT PROVED. It trusts the file that ./polylab wrote when it built the program: the checksum of the sources, the toolchain and the
# revision; these go into each package as the file BUILT.
#
#     dev/do make_dist
#
# The maintainer of the Debian package is the author of the last commit. The version has the number of commits before the revision, so that it
# rises. Nothing is made of a checkout that has changes, or new files in a folder that is packed: it ends with 1 and a sentence.
set -eu
CDPATH='' cd "$(dirname "$0")/../.."

stop() {
    echo "make_dist: $*" >&2
    exit 1
}

./polylab --version > /dev/null
stamp=crates/polylab/out/built
git rev-parse HEAD > /dev/null 2>&1 || stop "this is no git checkout, so no revision can be named"
[ -z "$(git status --porcelain --untracked-files=no)" ] || stop "this checkout has changes, and a package names a revision: commit them first"
new=$(git status --porcelain -- bench crates completions docs examples tools | head -n 1)
[ -z "$new" ] || stop "a folder that is packed has a new file, and a package names a revision: ${new#???}"
[ "$(git rev-parse --is-shallow-repository)" = false ] || stop "this clone has no history, so the version's number of commits isn't known"
revision=$(git rev-parse HEAD)
when=$(git log -1 --format=%ct)
number=$(./polylab --version | sed -n 's/^polylab //p')
version=$number~r$(git rev-list --count HEAD).g$(git rev-parse --short=12 HEAD)
[ -n "$number" ] || stop "the program tells no version"

work=$(mktemp -d)
trap 'rm -rf "$work"' EXIT
rm -rf dist
mkdir -p dist

{
    echo "Polylab $number, made of revision $revision."
    sed -n 's/^sources /sources of the proved crates (sha256 of their checksums, as .\/polylab takes it): /p' "$stamp"
    sed -n "s/^program /program (sha256 of lib\/polylab\/polylab): /p" "$stamp"
    sed -n 's/^kit /proved and built by: /p' "$stamp"
    sed -n 's/^proved /its proofs were checked: /p' "$stamp"
    # shellcheck disable=SC1091
    echo "on: $(. /etc/os-release 2> /dev/null && echo "$PRETTY_NAME"), $(uname -m)"
    echo
    echo "The proofs ran on the machine of whoever made this package: to them the program is proved. Whoever else takes it trusts"
    echo "them. To prove it again, check the revision out, install the toolchain named above, and run rt ci and make."
} > "$work/BUILT"

make --no-print-directory -s install DESTDIR="$work/root" PREFIX=/usr ZSH_FUNCTIONS=/usr/share/zsh/vendor-completions
cp "$work/BUILT" "$work/root/usr/share/doc/polylab/BUILT"
printf 'No licence is given yet: all rights are reserved.\n' > "$work/root/usr/share/doc/polylab/copyright"
# (the program may have been built at an earlier revision with the same sources)
sed -i "s/^revision .*/revision $revision/" "$work/root/usr/lib/polylab/built"
gzip -9n "$work"/root/usr/share/man/man1/*.1
chmod -R u+rwX,go+rX,go-w "$work/root"
chmod 755 "$work/root/usr/bin/polylab" "$work/root/usr/lib/polylab/polylab"
find "$work/root" -exec touch -h -d "@$when" {} +

name=polylab-$version-amd64
mv "$work/root/usr" "$work/$name"
tar -C "$work" --sort=name --owner=0 --group=0 --numeric-owner --mtime="@$when" -cf - "$name" | gzip -9n > "dist/$name.tar.gz"
mv "$work/$name" "$work/root/usr"

if command -v dpkg-deb > /dev/null; then
    # (the scripts are of the package, and of 3.10 on in what they use)
    depends='libc6 (>= 2.36), python3 (>= 3.10)'
    if ldd crates/polylab/out/polylab | grep -q libgcc_s; then depends="$depends, libgcc-s1"; fi
    maintainer=$(git log -1 --format='%an <%ae>')
    mkdir -p "$work/root/DEBIAN" "$work/root/usr/share/lintian/overrides"
    {
        printf 'polylab (%s) unstable; urgency=low\n\n  * Made of revision %.12s; CHANGELOG.md tells more.\n\n' "$version" "$revision"
        echo " -- $maintainer  $(date -R -u -d "@$when")"
    } | gzip -9n > "$work/root/usr/share/doc/polylab/changelog.gz"
    {
        echo '# The program is the one that was proved and built, byte by byte: the file BUILT has its checksum.'
        echo 'polylab: unstripped-binary-or-object [usr/lib/polylab/polylab]'
    } > "$work/root/usr/share/lintian/overrides/polylab"
    sed -i '1s,^#!/usr/bin/env -S python3 -B$,#!/usr/bin/python3 -B,' "$work"/root/usr/share/polylab/tools/*
    cat > "$work/root/DEBIAN/control" << END
Package: polylab
Version: $version
Architecture: amd64
Maintainer: $maintainer
Installed-Size: $(du -sk "$work/root/usr" | cut -f 1)
Depends: $depends
Section: math
Priority: optional
Description: exact-cover and polycube packing solver
 Finds every way to pack a region with polycubes, and every exact cover of a
 problem. That its list is complete is proved of its code; the file BUILT in
 its documentation says where and by which toolchain that proof was checked.
END
    # (whoever runs the scripts by `python3 SCRIPT` may leave this there)
    printf '#!/bin/sh\nset -e\nrm -rf /usr/share/polylab/tools/__pycache__\n' > "$work/root/DEBIAN/prerm"
    chmod 755 "$work/root/DEBIAN/prerm"
    find "$work/root" -exec touch -h -d "@$when" {} +
    SOURCE_DATE_EPOCH=$when dpkg-deb --root-owner-group --build "$work/root" "dist/polylab_${version}_amd64.deb" > /dev/null
else
    echo "make_dist: there is no dpkg-deb here, so no Debian package was made" >&2
fi
cp "$work/BUILT" dist/BUILT
(cd dist && find . -type f ! -name SHA256SUMS | sed 's/^\.\///' | LC_ALL=C sort | xargs sha256sum > "$work/SHA256SUMS")
mv "$work/SHA256SUMS" dist/SHA256SUMS
ls -l dist
