# Finds the program that belongs to the sources that are here. Sourced by pbfcut, tests/run, install and tools/release.sh.
#
# `find_program` sets `program` to the path of one that can be run: the one that was built here from these sources, or else the one that
# release/ has of them. What decides are digests, never times of files. Its status is 0, or it says why there is none:
#
#   1  the sources are not those of release/, or nothing can be read there
#   2  the program in release/ is not the one that its MANIFEST names
#   3  the program in release/ cannot be run on this machine
#
# `top` is the folder of the repository.

built=$top/crates/pbfcut_run/out/pbfcut_run
packed=$top/release/pbfcut-x86_64-linux.gz
manifest=$top/release/MANIFEST
unpacked=$top/release/out/pbfcut

say() {
  echo "pbfcut: $*" >&2
}

say_no_toolchain() {
  say "the Rattle toolchain, which proves and builds it, is not here: install the kit that README.md names, so that 'rt version' works"
}

# a value of the MANIFEST, by its name
manifest_value() {
  sed -n "s/^$1: //p" "$manifest" 2>/dev/null
}

digest_of() {
  sha256sum <"$1" 2>/dev/null | cut -d ' ' -f 1
}

is_digest() {
  [[ $1 =~ ^[0-9a-f]{64}$ ]]
}

# Whether release/ says that it has the program of the sources with this digest.
is_handed_over() {
  is_digest "$(manifest_value sources)" && is_digest "$(manifest_value sha256)" && [ "$(manifest_value sources)" = "$1" ]
}

# Unpacks the program of release/ into a file that is there and empty, where it is the one that the MANIFEST names.
unpack_to() {
  gzip -dc <"$packed" >"$1" 2>/dev/null && [ "$(digest_of "$1")" = "$(manifest_value sha256)" ] && chmod 755 "$1"
}

# Makes a new file that programs can be run from, and sets `made` to its path: beside release/, or where nothing can be written there,
# in a temporary folder.
make_file() {
  is_lasting=yes
  { mkdir -p "${unpacked%/*}" && made=$(mktemp "$unpacked.XXXXXX"); } 2>/dev/null && return 0
  is_lasting=no
  made=$(mktemp "${TMPDIR:-/tmp}/pbfcut.XXXXXX" 2>/dev/null)
}

# Unpacks the program of release/, and tries it once.
unpack_program() {
  if [ "$(uname -sm)" != "Linux x86_64" ]; then
    say "the program in release/ runs on Linux on x86-64; this is $(uname -sm)"
    return 3
  fi
  if ! make_file; then
    say "there is no room to unpack the program of release/: neither in ${unpacked%/*} nor in ${TMPDIR:-/tmp}"
    return 3
  fi
  if ! unpack_to "$made"; then
    local room
    room=$(df -Pk "${made%/*}" 2>/dev/null | awk 'NR == 2 { print $4 }')
    rm -f "$made"
    if [ "${room:-9999}" -lt 2048 ]; then
      say "there is no room to unpack the program of release/ in ${made%/*}"
      return 3
    fi
    say "release/${packed##*/} is not what MANIFEST says, so it is not run; fetch it again, or prove and build it by './pbfcut --prove'"
    return 2
  fi
  local heard
  if ! heard=$("$made" --version 2>&1 >/dev/null </dev/null); then
    rm -f "$made"
    say "the program in release/ cannot be run here: ${heard:-no reason was given}"
    say "it needs $(manifest_value needs)"
    return 3
  fi
  say "running the program of release/, proved and built from ${its_sources:-these sources} on $(manifest_value date)" \
    "(SHA-256 $(manifest_value sha256 | cut -c 1-8)..); './pbfcut --prove' makes it again"
  if [ "$is_lasting" = yes ]; then
    mv -f "$made" "$unpacked"
    program=$unpacked
  else
    # It is open, so that its name can go at once, and nothing stays behind.
    exec {opened}<"$made"
    rm -f "$made"
    program=/proc/$$/fd/$opened
  fi
}

# The program of release/, of whatever sources it is.
find_released() {
  if [ ! -f "$manifest" ] || ! is_digest "$(manifest_value sources)" || ! is_digest "$(manifest_value sha256)"; then
    say "release/MANIFEST cannot be read"
    return 1
  elif [ -x "$unpacked" ] && [ "$(digest_of "$unpacked")" = "$(manifest_value sha256)" ]; then
    program=$unpacked
  else
    unpack_program
  fi
}

find_program() {
  local sources
  sources=$("$top/tools/sources.sh") || return 1
  if [ -x "$built" ] && [ "$(cat "$built.sources" 2>/dev/null)" = "$sources" ]; then
    program=$built
  elif is_handed_over "$sources" || [ ! -f "$manifest" ] || ! is_digest "$(manifest_value sha256)"; then
    find_released
  else
    say "the sources here are not those of the program in release/"
    return 1
  fi
}
