#!/bin/sh
# Packs this checkout with stand-ins for its program and rt: the tar works where it is unpacked, lintian has no error to tell of the Debian
# package, its version tells the revision, and what can't be named by a revision isn't packed. NOT PROVED; it trusts tar, dpkg-deb and lintian.
#
#     dev/do check_dist
#
# Without git or dpkg-deb it skips, which a line tells. Ends with 1 at the first fault, with a sentence. It packs the files as they stand,
# committed or not.
# shellcheck source=dev/parts/checking.sh
. "$(dirname "$0")/../parts/checking.sh"
for word in git dpkg-deb; do
    command -v "$word" > /dev/null || { echo "check_dist: skipped: there is no $word here"; exit 0; }
done
git rev-parse HEAD > /dev/null 2>&1 || { echo "check_dist: skipped: this is no git checkout"; exit 0; }
unset POLYLAB

# A checkout without crates but the program's, whose source is the stand-in.
mkdir -p "$work/bin" "$work/small/crates/polylab/src" "$work/else where"
git ls-files -z | grep -zv '^crates/' | xargs -0 tar -cf - | tar -xf - -C "$work/small"
echo 'polylab:' > "$work/small/crates.txt"
cat > "$work/small/crates/polylab/src/program" << 'END'
#!/bin/sh
case ${1:-} in
    --version) echo "polylab 0.1.0" ;;
    *) printf 'visits 0\nsteps 0\nlevels 0\nend\n' ;;
esac
END
# shellcheck disable=SC2016
printf '#!/bin/sh\nmkdir -p out\n[ "$1" != run ] || cp src/program out/polylab\necho kit\n' > "$work/bin/rt"
chmod +x "$work/bin/rt" "$work/small/crates/polylab/src/program"
cd "$work/small"
PATH=$work/bin:$PATH
git init -q
git config user.name somebody
git config user.email somebody@debian.org
git add -A
git commit -qm 'all of it'
packs() {
    MAKEFLAGS='' dev/do make_dist > "$work/said" 2>&1
}

echo a note > note
packs || fail "$(cat "$work/said")"
version=0.1.0~r1.g$(git rev-parse --short=12 HEAD)
(cd dist && sha256sum --quiet -c SHA256SUMS) || fail "a checksum"
tar -xzf "dist/polylab-$version-amd64.tar.gz" -C "$work/else where"
top="$work/else where/polylab-$version-amd64"
[ "$("$top/bin/polylab" --version)" = "polylab 0.1.0
revision $(git rev-parse HEAD)" ] || fail "the package tells another version: $("$top/bin/polylab" --version)"
grep -q "^Polylab 0.1.0, made of revision $(git rev-parse HEAD)" "$top/share/doc/polylab/BUILT" || fail "BUILT: $(cat "$top/share/doc/polylab/BUILT")"
grep -q '^its proofs were checked: by rt lib and rt run' "$top/share/doc/polylab/BUILT" || fail "BUILT doesn't say how the program was proved"
echo piece > "$work/part-1.snapshot"
"$top/bin/polylab-answer" "$work/part-1.snapshot" || fail "the unpacked tar counts nothing"
[ -z "$(find "$top" -name __pycache__)" ] || fail "the tar has __pycache__"
[ -z "$(find "$top/share/man" -type f ! -name '*.gz')" ] || fail "a man page isn't packed"
[ -f "$top/share/doc/polylab/bench/exact_cover.c" ] || fail "the tar has no exact_cover.c, which RECIPES compiles"
dpkg-deb -f "dist/polylab_${version}_amd64.deb" Depends | grep -q 'python3' || fail "the Debian package doesn't depend on python3"
if command -v lintian > /dev/null; then
    lintian --tag-display-limit 0 "dist/polylab_${version}_amd64.deb" > "$work/said" 2>&1 || true
    if grep '^E:' "$work/said"; then fail "lintian has errors"; fi
else
    echo "check_dist: there is no lintian here, so the package wasn't tried by it"
fi

for change in 'echo >> README.md' 'echo > tools/new'; do
    eval "$change"
    if packs; then fail "a checkout is packed after $change"; fi
    grep -q -e 'README.md\|has changes' -e 'tools/new' "$work/said" || fail "after $change: $(cat "$work/said")"
    git checkout -q README.md
done
echo "ok a tar and a Debian package, version $version"
