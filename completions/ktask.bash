# Completions of ktask for bash: put this file where bash-completion looks, or source it.

_ktask() {
  local word=${COMP_WORDS[COMP_CWORD]} before=${COMP_WORDS[COMP_CWORD-1]}
  if [ "$COMP_CWORD" -eq 1 ]; then
    mapfile -t COMPREPLY < <(compgen -W "run bench plain check print help" -- "$word")
    return
  fi
  COMPREPLY=()
  case $before in --workers | --superblocks | --units | --limit | =) return ;; esac
  local options=
  case ${COMP_WORDS[1]} in
    run) options="--workers --superblocks --units --limit --trace" ;;
    bench) options="--workers" ;;
    plain) options="--superblocks --units --limit --trace" ;;
  esac
  case ${COMP_WORDS[1]}:$word in
    *:-*) mapfile -t COMPREPLY < <(compgen -W "$options" -- "$word") ;;
    bench:*) [ "$COMP_CWORD" -ne 2 ] || mapfile -t COMPREPLY < <(compgen -W "fib grid chain" -- "$word") ;;
    run:* | plain:* | check:* | print:*) mapfile -t COMPREPLY < <(compgen -f -- "$word") ;;
  esac
}

complete -o filenames -F _ktask ktask
