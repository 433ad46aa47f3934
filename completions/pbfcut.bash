# Completion for pbfcut and pbfcutz in bash.

_pbfcut_files() {
  mapfile -t COMPREPLY < <(compgen -f -- "$1")
  compopt -o filenames 2>/dev/null
}

_pbfcut_words() {
  mapfile -t COMPREPLY < <(compgen -W "$2" -- "$1")
  case ${COMPREPLY[0]-} in *=) compopt -o nospace 2>/dev/null ;; esac
}

_pbfcut() {
  local word=${COMP_WORDS[COMP_CWORD]} command=${COMP_WORDS[1]-} commands="extract convert check show blobs" raw= files= areas=
  if [ "${COMP_WORDS[0]##*/}" = pbfcutz ]; then
    commands="extract convert pack unpack check show info blobs" raw=--raw files="--output= --overwrite" areas="--config= --directory="
  fi
  if [ "$COMP_CWORD" -eq 1 ]; then
    _pbfcut_words "$word" "$commands help --help --version"
    return
  fi
  # The shell makes a word of its own of the = between an option and its value.
  local option=${COMP_WORDS[COMP_CWORD - 1]}
  [ "$option" != = ] || option=${COMP_WORDS[COMP_CWORD - 2]}
  [ "$word" != = ] || word=
  case $command:$option in
    extract:--box | extract:--bbox | extract:-b)
      COMPREPLY=()
      return
      ;;
    extract:--strategy | extract:-s)
      _pbfcut_words "$word" "complete_ways smart"
      return
      ;;
    extract:--directory | extract:-d)
      mapfile -t COMPREPLY < <(compgen -d -- "$word")
      compopt -o filenames 2>/dev/null
      return
      ;;
    extract:--types)
      _pbfcut_words "$word" "multipolygon multipolygon,boundary any"
      return
      ;;
  esac
  case $command:$word in
    extract:-*) _pbfcut_words "$word" "--box= --polygon= $areas --parents --strategy= --types= --progress --digests $raw $files --help" ;;
    convert:-*) _pbfcut_words "$word" "--progress --digests $raw $files --help" ;;
    pack:-* | unpack:-*) _pbfcut_words "$word" "--progress --digests $files --help" ;;
    check:-*) _pbfcut_words "$word" "--progress --digests --help" ;;
    show:-*) _pbfcut_words "$word" "--dates --progress --help" ;;
    info:-*) _pbfcut_words "$word" "--json --help" ;;
    blobs:-*) _pbfcut_words "$word" "--help" ;;
    help:*) _pbfcut_words "$word" "$commands" ;;
    *) _pbfcut_files "$word" ;;
  esac
}

complete -F _pbfcut pbfcut pbfcutz
