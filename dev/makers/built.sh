# Of which sources the built program is: read by ./polylab, dev/try and dev/do mark_built, where `here` is the checkout. NOT PROVED.
# shellcheck shell=sh disable=SC2154
program=$here/crates/polylab/out/polylab
stamp=$here/crates/polylab/out/built

# The crates that the program stands on, as folders.
folders() {
    awk '{ sub(/#.*/, "") }
        /:/ { name = $1; sub(/:$/, "", name); below[name] = ""; for (k = 2; k <= NF; k++) below[name] = below[name] " " $k }
        END { todo = "polylab"
              while (todo != "") {
                  name = todo; sub(/ .*/, "", name); if (!sub(/^[^ ]+ +/, "", todo)) todo = ""
                  if (name in below && !seen[name]++) { print "crates/" name; todo = substr(below[name], 2) " " todo }
                  sub(/^ +/, "", todo) } }' "$here/crates.txt"
}

# One checksum of these parts of all crates that the program stands on.
checksum() {
    (cd "$here" && for folder in $(folders); do
        for part; do find "$folder/$part" -type f 2> /dev/null || true; done
    done | LC_ALL=C sort | xargs sha256sum crates.txt | sha256sum | cut -d ' ' -f 1)
}

# One checksum of all that the program is proved and built from.
sources() {
    checksum src specs proofs
}

# What a build has to have written of the program and these sources.
wanted() {
    echo "sources $1"
    echo "program $(sha256sum < "$program" | cut -d ' ' -f 1)"
}

is_current() {
    [ -x "$program" ] && [ -r "$stamp" ] && [ "$(wanted "$(sources)")" = "$(sed -n 1,2p "$stamp")" ]
}

# Writes of which sources the program is, those with this checksum, and how it is known that they were proved.
mark() {
    {
        wanted "$1"
        echo "kit $(rt version)"
        echo "revision $(git -C "$here" describe --always --dirty --abbrev=40 2> /dev/null || echo unknown)"
        echo "proved $2"
    } > "$stamp.new"
    mv "$stamp.new" "$stamp"
}
