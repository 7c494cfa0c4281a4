# Completion of the words of xnum in bash: `source tools/completion.bash`.
# The commands come first, then files: for a graph those that end in .gml, for an answer all others.

_xnum() {
  local word=${COMP_WORDS[COMP_CWORD]} command=${COMP_WORDS[1]} without='*.gml'
  compopt +o filenames
  COMPREPLY=()
  if ((COMP_CWORD == 1)); then
    mapfile -t COMPREPLY < <(compgen -W 'check draw examine sample solve' -- "$word")
    return
  fi
  case $command:$COMP_CWORD in
  check:2 | draw:2 | solve:2) without='!*.gml' ;;
  check:3 | draw:3 | examine:2) ;;
  sample:3 | solve:3)
    mapfile -t COMPREPLY < <(compgen -W '--budget' -- "$word")
    return
    ;;
  *) return ;;
  esac
  compopt -o filenames
  mapfile -t COMPREPLY < <(compgen -f -X "$without" -- "$word"; compgen -d -- "$word")
}

complete -F _xnum xnum
