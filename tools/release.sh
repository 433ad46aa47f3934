#!/usr/bin/env bash
# Makes release/ of the program that the gate built, or an archive of a release.
#
# usage: tools/release.sh                    after a green `bash .ci/run`: packs its program into release/, and writes release/MANIFEST
#                                            and release/REFUSED, the list of the planted bugs that were refused
#        tools/release.sh --archive FOLDER   makes FOLDER/pbfcut-VERSION-x86_64-linux.tar.gz of release/, and pbf-vectors-VERSION.tar.gz
#                                            of vectors/ for authors of other readers, with SHA256SUMS beside them
set -eu
top=$(cd "$(dirname "$(readlink -f "${BASH_SOURCE[0]}")")/.." && pwd)
cd "$top"
. tools/program.sh

fail() {
  echo "tools/release.sh: $*" >&2
  exit 1
}

# the newest version of glibc that a program asks for
needed_glibc() {
  objdump -T "$1" | grep -o 'GLIBC_[0-9.]*' | sort -Vu | tail -n 1 | cut -d _ -f 2
}

make_release() {
  local sources version
  sources=$(tools/sources.sh)
  [ "$(cat "$built.sources" 2>/dev/null)" = "$sources" ] && [ -s "$built.gate" ] ||
    fail "the program of these sources has not passed the gate here: run 'bash .ci/run' first"
  [ -z "$(git status --porcelain -- crates crates.txt)" ] || fail "crates/ has changes that are not committed"
  version=$("$built" --version)
  mkdir -p release
  gzip -9nc "$built" >"$packed"
  if [ -s "$built.refused" ]; then
    cp "$built.refused" release/REFUSED
  fi
  {
    echo "program: ${version%% (*}"
    echo "sha256: $(digest_of "$built")"
    echo "bytes: $(stat -c %s "$built")"
    echo "sources: $sources"
    echo "toolchain: $(rt version)"
    echo "flags: none, so for x86-64-v2"
    echo "needs: Linux on x86-64-v2, glibc $(needed_glibc "$built") or later"
    echo "commit: $(git rev-parse HEAD)"
    echo "date: $(date -u +%F)"
    echo "gate: bash .ci/run: $(paste -sd ';' "$built.gate" | sed 's/;/; /g')"
  } >"$manifest"
  rm -f "$unpacked"
  cat "$manifest"
}

# The folder $1 packed to $2. The same files make the same bytes.
pack_folder() {
  local date
  date=$(manifest_value date)
  tar --sort=name --owner=0 --group=0 --numeric-owner --mtime="$date" -C "$(dirname "$1")" -c "$(basename "$1")" | gzip -9n >"$2"
}

make_archive() {
  local version name suite
  is_handed_over "$(tools/sources.sh)" || fail "release/ has the program of other sources"
  [ -z "$(git status --porcelain -- vectors docs)" ] || fail "vectors/ or docs/ has changes that are not committed"
  version=$(manifest_value program | cut -d ' ' -f 2)
  name=pbfcut-$version-x86_64-linux
  folder=$(mktemp -d)
  trap 'rm -rf "$folder"' EXIT
  mkdir "$folder/$name"
  unpack_to "$folder/$name/pbfcut" || fail "${packed#"$top"/} is not what MANIFEST says"
  ln -s pbfcut "$folder/$name/pbfcutz"
  cp --parents -r install README.md docs/USING.md docs/pbfcut.1 docs/pbfcutz.1 completions "$folder/$name"
  cp "$manifest" CHANGELOG.md "$folder/$name"
  cat >"$folder/$name/README" <<'TEXT'
pbfcut cuts a box or a polygon out of an OpenStreetMap PBF file. pbfcutz, the same program under another name, reads and writes compressed
files, as they are published.

  ./install                installs both, with manual pages and completions, below /usr/local
  ./install $HOME/.local   ... or below another folder
  ./pbfcut --help          runs pbfcut from here

The program is proved: MANIFEST says of which sources it was built, by which toolchain, and what the gate said. The repository has the
theorem and its proof.
TEXT
  suite=pbf-vectors-$version
  mkdir -p "$1"
  pack_folder "$folder/$name" "$1/$name.tar.gz"
  python3 vectors/run.py archive "$1/$suite.tar.gz"
  (cd "$1" && sha256sum "$name.tar.gz" "$suite.tar.gz" >SHA256SUMS)
  printf '%s\n' "$1/$name.tar.gz" "$1/$suite.tar.gz"
}

case $#:${1-} in
  0:) make_release ;;
  2:--archive) make_archive "$2" ;;
  *) echo "usage: tools/release.sh [--archive FOLDER]" >&2 && exit 2 ;;
esac
