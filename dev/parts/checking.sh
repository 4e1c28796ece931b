# What the checks that are shell scripts begin with: they run at the top of the checkout, have a folder for temporary files, `work`, and end
# at the first fault with a sentence and status 1. NOT PROVED.
# shellcheck shell=sh
set -eu
check=$(basename "$0" .sh)
CDPATH='' cd "$(dirname "$0")/../.."
work=$(mktemp -d)
trap 'rm -rf "$work"' EXIT

fail() {
    echo "$check: $*" >&2
    exit 1
}
