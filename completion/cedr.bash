# Completion of cedr, cedr-explain and cedr-plan for bash. Made from the table of commands in docs/program.md by
# checks/completion.py --write. Change that table, and not this file.

# What stands behind a command; the status is 1 where the word is none.
_cedr_words() {
  case $1 in
    run) echo 'PLAN' ;;
    stream) echo 'PLAN' ;;
    pool) echo 'N:16 PLAN' ;;
    parts) echo 'N:16 PLAN' ;;
    live) echo 'PLAN SCRIPT' ;;
    save) echo 'PLAN SCRIPT' ;;
    resume) echo 'PLAN CHECKPOINT SCRIPT' ;;
    follow) echo 'PLAN CHECKPOINT SCRIPT' ;;
    serial) echo 'PLAN' ;;
    audit) echo 'PLAN' ;;
    check) echo 'PLAN' ;;
    history) echo 'FILE' ;;
    make) echo 'N' ;;
    --help) echo '' ;;
    --version) echo '' ;;
    *) return 1 ;;
  esac
}

# Offers what stands for a word of this kind.
_cedr_kind() {
  case $1 in
    PLAN)
      compopt -o filenames
      mapfile -t COMPREPLY < <(compgen -f -X '!*.json' -- "$word"; compgen -d -- "$word") ;;
    N:*) mapfile -t COMPREPLY < <(compgen -W "$(seq "${1#N:}")" -- "$word") ;;
    N | '') ;;
    *)
      compopt -o filenames
      mapfile -t COMPREPLY < <(compgen -f -- "$word") ;;
  esac
}

_cedr() {
  local word=${COMP_WORDS[COMP_CWORD]} at kinds='' offered=''
  COMPREPLY=()
  for ((at = 1; at < COMP_CWORD; at++)); do
    if kinds=$(_cedr_words "${COMP_WORDS[at]}"); then break; fi
  done
  if ((at < COMP_CWORD)); then
    read -ra kinds <<< "$kinds"
    _cedr_kind "${kinds[COMP_CWORD - at - 1]-}"
    return
  fi
  offered='run stream pool parts live save resume follow serial audit check history make --help --version'
  if [[ ${COMP_WORDS[0]##*/} == cedr-explain ]]; then offered+=' --progress'; fi
  mapfile -t COMPREPLY < <(compgen -W "$offered" -- "$word")
}

# The words of cedr-plan: its command, a file, and behind `ask` a command of the program without its plan.
_cedr_plan() {
  local word=${COMP_WORDS[COMP_CWORD]} kinds=''
  COMPREPLY=()
  case $COMP_CWORD:${COMP_WORDS[1]} in
    1:*) mapfile -t COMPREPLY < <(compgen -W 'compile words check ask --help' -- "$word") ;;
    2:words) _cedr_kind PLAN ;;
    2:compile | 2:check | 2:ask) _cedr_kind FILE ;;
    3:ask) mapfile -t COMPREPLY < <(compgen -W 'run stream pool parts live save resume follow serial audit' -- "$word") ;;
    *:ask)
      kinds=$(_cedr_words "${COMP_WORDS[3]}") || return
      read -ra kinds <<< "${kinds/PLAN/}"
      _cedr_kind "${kinds[COMP_CWORD - 4]-}" ;;
  esac
}

complete -F _cedr cedr cedr-explain
complete -F _cedr_plan cedr-plan
