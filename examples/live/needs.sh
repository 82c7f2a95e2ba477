# shellcheck shell=bash
# Read by the scripts beside it. `needs COMMAND PACKAGE` ends the script with 77 where the command isn't there.
# shellcheck disable=SC2034 # the scripts read it
here=$(cd "$(dirname "${BASH_SOURCE[0]}")" && pwd)
needs() {
  command -v "$1" > /dev/null && return
  echo "${0##*/}: not run: $1 isn't there (Debian's package $2)" >&2
  exit 77
}
needs python3 python3
