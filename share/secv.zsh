#compdef secv
# Completions of secv for zsh, which tools/completions writes.

_secv() {
  local help='(-)--help[Say more of this command]'
  if (( CURRENT == 2 )); then
    local -a commands
    commands=(
      'check:say whether the labels of a design keep every secret'
      'verify:say whether a certificate proves a design to keep every secret'
      'list:list the obligations of a design, a line each'
      'cnf:print the clauses of one obligation of a design, as DIMACS'
      'sim:simulate a design on the stimulus of standard input'
      'compare:run a design on two stimuli and tell the first difference that a level sees'
      'gen:print a sample design of 1 to 200 lanes, or check it'
      '--help:print this text'
      '--version:print the version'
    )
    _describe command commands
    return
  fi
  local command=$words[2]
  shift words
  (( CURRENT-- ))
  case $command in
    check)
      _arguments $help \
        '1:file:_files -g "*.v"' \
        '--proof=[Store the certificate of an accepted design in this file]:name:_files' \
        '--budget=[Learn at most this many clauses for each obligation, 20000 unless given]:number: ' \
        '--json[Print the verdict as JSON, on one line]' \
        '--top=[The module to take as the top]:module: '
      ;;
    verify)
      _arguments $help \
        '1:file:_files -g "*.v"' \
        '2:proof:_files' \
        '--top=[The module to take as the top]:module: '
      ;;
    list)
      _arguments $help \
        '1:file:_files -g "*.v"' \
        '--top=[The module to take as the top]:module: '
      ;;
    cnf)
      _arguments $help \
        '1:file:_files -g "*.v"' \
        '2:number: ' \
        '--top=[The module to take as the top]:module: '
      ;;
    sim)
      _arguments $help \
        '1:file:_files -g "*.v"' \
        '--level=[Show only the signals whose labels flow to this point]:point: ' \
        '--order=[Run the processes in the order of this number]:number: ' \
        '--top=[The module to take as the top]:module: '
      ;;
    compare)
      _arguments $help \
        '1:file:_files -g "*.v"' \
        '2:a stimulus:_files' \
        '3:another stimulus:_files' \
        '--level=[Compare only the signals whose labels flow to this point]:point: ' \
        '--top=[The module to take as the top]:module: '
      ;;
    gen)
      _arguments $help \
        '1:lanes: ' \
        '--check[Print the verdict on the design, and not the design]'
      ;;
  esac
}

_secv "$@"
