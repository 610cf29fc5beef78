# Completion of @command@ for bash. `install` fills in its name, its options and what they take.
@function@() {
  local options='@options@' words=(@words@)
  local -A kinds=(@kinds@)
  local word=${COMP_WORDS[COMP_CWORD]} at place=0 kind
  COMPREPLY=()
  # Which of the words without a dash it is; behind an option with a value it is that.
  for ((at = 1; at < COMP_CWORD; at++)); do
    case ${COMP_WORDS[at]} in
      -*) [ -z "${kinds[${COMP_WORDS[at]}]-}" ] || at=$((at + 1)) ;;
      # bash takes these as words of their own, in the middle of one.
      : | =) at=$((at + 1)) ;;
      *) place=$((place + 1)) ;;
    esac
  done
  kind=${words[place]-}
  if [ "$at" -gt "$COMP_CWORD" ]; then
    kind=${kinds[${COMP_WORDS[COMP_CWORD - 1]}]-}
  elif [ "${word:0:1}" = - ]; then
    kind=options
  fi
  case $kind in
    options) mapfile -t COMPREPLY < <(compgen -W "$options" -- "$word") ;;
    files)
      compopt -o filenames 2>/dev/null
      mapfile -t COMPREPLY < <(compgen -f -- "$word")
      ;;
    interfaces)
      mapfile -t COMPREPLY < <(compgen -W "$(ls /sys/class/net 2>/dev/null)" -- "$word")
      ;;
    permissions) mapfile -t COMPREPLY < <(compgen -W 'any none' -- "$word") ;;
    commands) mapfile -t COMPREPLY < <(compgen -W 'check exit stop forward cancel' -- "$word") ;;
    hosts)
      # With bash-completion the hosts of known-hosts files and of configurations.
      if declare -F _known_hosts_real >/dev/null; then
        _known_hosts_real -a -- "$word"
      else
        mapfile -t COMPREPLY < <(compgen -A hostname -- "$word")
      fi
      ;;
  esac
}
complete -F @function@ @command@
