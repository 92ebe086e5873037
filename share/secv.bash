# Completions of secv for bash, which tools/completions writes.
_secv() {
  local word=${COMP_WORDS[COMP_CWORD]} before=${COMP_WORDS[COMP_CWORD - 1]} options
  COMPREPLY=()
  if [ "$COMP_CWORD" -eq 1 ]; then
    mapfile -t COMPREPLY < <(compgen -W 'check verify list cnf sim compare gen --help --version' -- "$word")
    return
  fi
  case ${COMP_WORDS[1]} in
    check) options='--proof --budget --json --top' ;;
    verify | list | cnf) options='--top' ;;
    sim) options='--level --order --top' ;;
    compare) options='--level --top' ;;
    gen) options='--check' ;;
    *) return ;;
  esac
  case $before in --budget | --top | --level | --order) return ;; esac
  if [ "$COMP_CWORD" -eq 2 ]; then options+=' --help'; fi
  local files=design
  case ${COMP_WORDS[1]} in
    # A certificate and a stimulus may have any name.
    verify | compare) if [ "$COMP_CWORD" -gt 2 ]; then files=any; fi ;;
    gen) files=none ;;
  esac
  case $before in --proof) files=any ;; esac
  case $files,$word in
    *,-*) mapfile -t COMPREPLY < <(compgen -W "$options" -- "$word") ;;
    any,*) mapfile -t COMPREPLY < <(compgen -f -- "$word") ;;
    design,*) mapfile -t COMPREPLY < <(compgen -f -X '!*.v' -- "$word"; compgen -d -S / -- "$word") ;;
  esac
}
complete -o filenames -F _secv secv
