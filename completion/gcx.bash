# Completion of gcx for bash.
_gcx() {
  local word=${COMP_WORDS[COMP_CWORD]} before=${COMP_WORDS[COMP_CWORD - 1]}
  COMPREPLY=()
  if [ "$COMP_CWORD" -eq 1 ]; then
    mapfile -t COMPREPLY < <(compgen -W 'run whole explain peak gen selfrun many check help --help --version' -- "$word")
    return
  fi
  case ${COMP_WORDS[1]} in
    run)
      [ "$before" = --ahead ] && return
      case $word in
        -*) mapfile -t COMPREPLY < <(compgen -W '--trace --ahead --help' -- "$word") ;;
        *) mapfile -t COMPREPLY < <(compgen -f -- "$word") ;;
      esac ;;
    whole | explain | peak | many | check)
      case $word in
        -*) mapfile -t COMPREPLY < <(compgen -W '--help' -- "$word") ;;
        *) mapfile -t COMPREPLY < <(compgen -f -- "$word") ;;
      esac ;;
    gen | selfrun)
      mapfile -t COMPREPLY < <(compgen -W '--help' -- "$word") ;;
  esac
}
complete -o filenames -F _gcx gcx
