# What the scripts of bench/ that are bash begin with: they run at the top of the checkout, and `own` is their name there. NOT PROVED.
# shellcheck shell=bash
set -euo pipefail
own=bench/$(basename "$0")
CDPATH='' cd "$(dirname "$0")/.."

# Prints a word that is a number from 1 on. Any other ends the script, by its usage: the words that it takes, and what the number is called.
number() {
  case $1 in
    '' | *[!0-9]* | 0) echo "usage: $own [$2], with ${2%% *} from 1 on" >&2; exit 2 ;;
  esac
  echo "$1"
}
