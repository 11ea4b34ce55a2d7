# What the scripts over the programs share; a script has the name of its program. One file at most is its input, or standard input.
# Status 0, or 1 with a line on standard error where the file cannot be read or the program could not read or write.
set -euo pipefail
export LC_ALL=C
# a closed output is then a write that fails, which the program says
trap '' PIPE
name=${0##*/}

fail() {
  echo "$name: $1" >&2
  exit 1
}

# The arguments: the file, where there is one, can be read. Standard output is then 3, standard input 4.
take_arguments() {
  [ $# -le 1 ] || fail 'one file at most'
  file=${1-}
  if [ $# = 1 ]; then
    [ -e "$file" ] || fail "no such file: $file"
    [ ! -d "$file" ] || fail "a directory: $file"
    [ -r "$file" ] || fail "cannot be read: $file"
  fi
  { exec 3>&1; } 2>/dev/null || fail 'standard output is closed'
  { exec 4<&0; } 2>/dev/null || { [ $# = 1 ] && exec 4</dev/null; } || fail 'standard input is closed'
}

# Builds the program where it is not there. rt also runs what it built, here on no input.
build() {
  here=$(cd "$(dirname "$0")/.." && pwd)
  program=$here/crates/$name/out/$name
  if [ ! -x "$program" ]; then
    command -v rt >/dev/null || fail 'the program is not built, and rt, which builds it, is not there'
    echo "$name: the program is not built yet: every crate below it is proved first, which takes some minutes" >&2
    (cd "$here/crates/$name" && rt run </dev/null >/dev/null) || fail 'the program could not be built'
  fi
}

# Runs the program from 4 to 3. It has no status: what it says on standard error is that it failed.
run() {
  said=$("$program" 2>&1 >&3 <&4)
  [ -z "$said" ] || {
    echo "$said" >&2
    exit 1
  }
}
