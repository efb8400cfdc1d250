# Completion for bash of the words of gds: a path, a command, and its qualifiers.

# The commands and qualifiers that begin like the word, in whatever case its letters are.
_gds_matching() {
  local word=${1^^} candidate
  COMPREPLY=()
  for candidate in "${@:2}"; do
    [[ $candidate == "$word"* ]] && COMPREPLY+=("$candidate")
  done
}

# The qualifiers of CREATE that none of the words before gives.
_gds_create() {
  local word=$1 qualifier
  local given=" ${*:2}" left=()
  for qualifier in -BLOCK= -KEY= -VALUE= -ALLOC= -EXT= -LIMIT=; do
    [[ ${given^^} == *" $qualifier"* ]] || left+=("$qualifier")
  done
  _gds_matching "$word" "${left[@]}"
}

_gds() {
  # the line's words up to the cursor, since bash takes -KEY and = for two
  local line=${COMP_LINE:0:COMP_POINT} words
  read -ra words <<<"$line"
  [[ $line == *[[:space:]] ]] && words+=("")
  local count=${#words[@]}
  local word=${words[count - 1]}
  case $count in
    2) mapfile -t COMPREPLY < <(compgen -f -- "$word") ;;
    3) _gds_matching "$word" VERSION CREATE RUN INTEG EXTRACT ;;
    *)
      case ${words[2]^^} in
        CREATE) _gds_create "$word" "${words[@]:3:count-4}" ;;
        EXTRACT) ((count == 4)) && _gds_matching "$word" -STAMP= ;;
      esac
      ;;
  esac
  # no space behind a qualifier, whose number follows
  [[ ${COMPREPLY[0]-} == *= ]] && compopt -o nospace
}

complete -o filenames -F _gds gds
