# Completion of gq for bash.
_gq() {
  local word=${COMP_WORDS[COMP_CWORD]} before=${COMP_WORDS[COMP_CWORD - 1]} options='-l -0 -c -q -p -t -w -s -j -v -f --subset --help --version'
  COMPREPLY=()
  case ${COMP_WORDS[1]} in
    plan) options='-f' ;;
    held | plot) options='-f --subset' ;;
  esac
  case $before in
    -t | -w | -s) return ;;
  esac
  case $word in
    -*) mapfile -t COMPREPLY < <(compgen -W "$options" -- "$word") ;;
    *)
      mapfile -t COMPREPLY < <(compgen -f -- "$word")
      [ "$COMP_CWORD" -ne 1 ] || mapfile -t -O "${#COMPREPLY[@]}" COMPREPLY < <(compgen -W 'plan held plot' -- "$word") ;;
  esac
}
complete -o filenames -F _gq gq
