# Completions of mcal for bash: source this file.
_mcal() {
  local word=${COMP_WORDS[COMP_CWORD]}
  if [ "$COMP_CWORD" -eq 1 ]; then
    mapfile -t COMPREPLY < <(compgen -W "lint list diff run stats map schema help" -- "$word")
    return
  fi
  local options=""
  case ${COMP_WORDS[1]} in
    lint) options="--strict --json" ;;
    list) options="--trace" ;;
    diff) options="--json" ;;
    run) options="--trace --expect --junit --json" ;;
    stats | map | schema) options="" ;;
    help) options="lint list diff run stats map schema" ;;
  esac
  mapfile -t COMPREPLY < <(compgen -W "$options" -- "$word"; compgen -f -- "$word")
}
complete -o filenames -F _mcal mcal
