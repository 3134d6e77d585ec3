# Completion of nbdq for bash. Written by hand: the parser of its command line prints none.
_nbdq() {
  local word=${COMP_WORDS[COMP_CWORD]} before=${COMP_WORDS[COMP_CWORD - 1]} choices=''
  COMPREPLY=()
  if [ "$COMP_CWORD" = 1 ]; then
    choices='serve check talk replay control help --help --version'
  elif [ "${COMP_WORDS[1]}" = help ]; then
    [ "$COMP_CWORD" != 2 ] || choices='serve check talk replay control'
  else
    case $before in
      --unix | --control)
        compopt -o filenames
        mapfile -t COMPREPLY < <(compgen -f -- "$word")
        return
        ;;
      --tcp) choices='127.0.0.1:10809 0.0.0.0:10809 [::]:10809' ;;
      --workers) choices='1 2 4 8 16 32 64' ;;
      --sessions) choices='forever' ;;
      :) ;;
      '<' | '>' | '>>' | '2>')
        compopt -o filenames
        mapfile -t COMPREPLY < <(compgen -f -- "$word")
        return
        ;;
      *)
        choices='--help'
        [ "${COMP_WORDS[1]}" != serve ] || choices='--tcp --unix --control --workers --sessions --help'
        [ "${COMP_WORDS[1]}" != control ] || choices='--unix --help'
        ;;
    esac
  fi
  mapfile -t COMPREPLY < <(compgen -W "$choices" -- "$word")
}
complete -F _nbdq nbdq
