# Completion of bash for certpath, verify, vouch, bundle. Made of the commands' helps.
_certpath() {
  local word=${COMP_WORDS[COMP_CWORD]} words
  if [ "$COMP_CWORD" -eq 1 ]; then
    COMPREPLY=($(compgen -W "bundle frame path paths questions recheck why help --version --build" -- "$word"))
    return
  fi
  case ${COMP_WORDS[1]} in
    help) words="bundle frame path paths questions recheck why" ;;
    bundle) words="--help" ;;
    frame) words="--help --limit --why" ;;
    path) words="--at --demand-lists --help --host --limit --purpose --target" ;;
    paths) words="--at --demand-lists --evidence --help --limit --purpose" ;;
    questions) words="--help --limit" ;;
    recheck) words="--at --demand-lists --help --limit --purpose" ;;
    why) words="--at --demand-lists --help --host --limit --purpose --target" ;;
  esac
  _certpath_words "$word" "$words"
}
_certpath_other() {
  local word=${COMP_WORDS[COMP_CWORD]} words
  case ${1##*/} in
    verify) words="--all --anchors --at --demand-lists --dot --help --host --html --ignore-unused-lists --json --limit --lists --purpose --quiet --seconds --target --weak" ;;
    vouch) words="--help --limit --tries --verbose --weak" ;;
    bundle) words="--help" ;;
  esac
  _certpath_words "$word" "$words"
}
_certpath_words() {
  case $1 in
    -*) COMPREPLY=($(compgen -W "$2" -- "$1")) ;;
    *) COMPREPLY=($(compgen -f -- "$1")) ;;
  esac
  if [ "${COMP_WORDS[COMP_CWORD - 1]}" = --anchors ]; then
    COMPREPLY+=($(compgen -W system -- "$1"))
  fi
}
complete -o filenames -F _certpath certpath
complete -o filenames -F _certpath_other verify vouch bundle
