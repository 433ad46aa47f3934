#!/usr/bin/env bash
# Prints the digest of the sources that a program is made of: the files of src/, specs/ and proofs/ of its crate and of each crate
# below it, with their lines in crates.txt. Tests, planted bugs and pages are no part of it, and no time of a file is.
#
# usage: tools/sources.sh [CRATE]        CRATE is pbfcut_run, the program pbfcut, if it is left out
set -eu
export LC_ALL=C
cd "$(dirname "$(readlink -f "${BASH_SOURCE[0]}")")/.."

# the line of each crate
declare -A below=()
while IFS=: read -r name others; do
  case $name in "" | "#"*) ;; *) below[$name]=$others ;; esac
done <crates.txt

# the crates of this repository that are reached from the program's
declare -A reached=()
waiting=("${1:-pbfcut_run}")
while [ ${#waiting[@]} -gt 0 ]; do
  name=${waiting[0]}
  waiting=("${waiting[@]:1}")
  if [ -n "${below[$name]+known}" ] && [ -z "${reached[$name]+known}" ]; then
    reached[$name]=1
    for other in ${below[$name]}; do
      waiting+=("$other")
    done
  fi
done
if [ ${#reached[@]} -eq 0 ]; then
  echo "tools/sources.sh: crates.txt has no crate '$1'" >&2
  exit 2
fi

folders=()
for name in "${!reached[@]}"; do
  for part in src specs proofs; do
    if [ -d "crates/$name/$part" ]; then
      folders+=("crates/$name/$part")
    fi
  done
done
{
  for name in "${!reached[@]}"; do
    echo "$name:${below[$name]}"
  done | sort
  find "${folders[@]}" -type f \( -name '*.rt' -o -name '*.antt' \) -print0 | sort -z | xargs -0 sha256sum
} | sha256sum | cut -d ' ' -f 1
