# shellcheck shell=bash
# Sourced by the scripts that build programs over the library, some of them beside IronRDP's rle.rs.
#
# NULAMBIRO_LIB_DIR  the folder of libnulambiro.a, and of libplain_library.a where the bench needs
#                    it; without it, target/staticlib
# RLE_RS             the rle.rs to compare with, crates/ironrdp-graphics/src/rle.rs of IronRDP at
#                    commit 7793f5232a; without it, one that is found beside the repository
# PEERS              the folder of the programs around outside codecs, which are not part of this
#                    repository; its README says which packages they need. xrdp and rdesktop are
#                    looked for in target/peers/pkgs
root=$(cd "$(dirname "${BASH_SOURCE[0]}")/.." && pwd)
library=$(realpath -m "${NULAMBIRO_LIB_DIR:-$root/target/staticlib}")

# Ends the script with a message.
fail() {
  echo "${0##*/}: $*" >&2
  exit 1
}

# Prints the lines of comment at the head of the script, and ends it.
usage() {
  sed -n '2,/^[^#]/s/^# \{0,1\}//p' "$0" >&2
  exit 2
}

# Ends the script where one of the commands named is missing.
require_command() {
  local command
  for command in "$@"; do
    command -v "$command" >/dev/null || fail "the command $command is missing"
  done
}

# Ends the script where the library of one of the crates named is missing.
require_library() {
  local crate
  for crate in "$@"; do
    [ -f "$library/lib$crate.a" ] || fail "$library/lib$crate.a is missing: run 'tools/build $crate'"
  done
}

# Prints the path of rle.rs: the one that RLE_RS names, or the first of a checkout of IronRDP in a
# folder beside the repository or up to two folders below it. Prints nothing where there is none.
find_oracle() {
  local found
  if [ -n "${RLE_RS:-}" ]; then
    realpath -m "$RLE_RS"
    return
  fi
  for found in "$root"/../{*,*/*,*/*/*}/crates/ironrdp-graphics/src/rle.rs; do
    if [ -f "$found" ]; then
      realpath "$found"
      return
    fi
  done
}

# Sets the folder of the programs around outside codecs; ends the script where there is none.
require_peers() {
  [ -n "${PEERS:-}" ] || fail "name the folder of the peers' programs by PEERS"
  peers=$(realpath -m "$PEERS")
  [ -x "$peers/run.sh" ] || fail "PEERS: $peers has no run.sh"
}

# Builds FreeRDP's codec and xrdp's encoder as the library that PEERS_LIB names then.
build_peers() {
  require_peers
  require_command gcc pkg-config
  mkdir -p "$root/target/peers"
  export PEERS_LIB=$root/target/peers/peers.so WLOG_LEVEL=OFF
  export XRDP_LIB=${XRDP_LIB:-$root/target/peers/pkgs/xrdp/usr/lib/x86_64-linux-gnu/xrdp}
  local flags
  read -ra flags <<<"$(pkg-config --cflags freerdp2)"
  gcc -O2 -shared -fPIC "${flags[@]}" "$peers/peers.c" -lfreerdp2 -lwinpr2 -ldl -o "$PEERS_LIB"
}

# build NAME MAIN CRATE...: builds target/NAME/NAME from its main file over the crates named.
build() {
  local name=$1 main=$2 out=$root/target/$1 crate externs=()
  shift 2
  require_command rustc
  mkdir -p "$out"
  for crate in "$@"; do
    "build_$crate" "$out/lib$crate.rlib"
    externs+=(--extern "$crate=$out/lib$crate.rlib")
  done
  rustc --edition 2021 -O --crate-name "$name" "$main" -o "$out/$name" "${externs[@]}"
}

# The package over the library.
build_nulambiro() {
  require_library nulambiro
  rustc --edition 2021 -O --crate-type rlib --crate-name nulambiro "$root/rust/src/lib.rs" \
    -L native="$library" -l static=nulambiro -o "$1"
}

# The plain decoder.
build_plain() {
  require_library plain_library
  rustc --edition 2021 -O --crate-type rlib --crate-name plain "$root/bench/plain.rs" \
    -L native="$library" -l static=plain_library -o "$1"
}

# rle.rs as it is; what the compiler thinks of it is no concern here.
build_rle() {
  local oracle
  oracle=$(find_oracle)
  [ -n "$oracle" ] || fail "there is no rle.rs to compare with: name one by RLE_RS"
  [ -f "$oracle" ] || fail "RLE_RS: there is no file $oracle"
  rustc --edition 2021 -O -A warnings --crate-type rlib --crate-name rle "$oracle" -o "$1"
}
