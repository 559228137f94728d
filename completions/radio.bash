# Completion of radio for bash, written by docs/words.
_radio() {
  local word=${COMP_WORDS[COMP_CWORD]} before=${COMP_WORDS[COMP_CWORD-1]} words=''
  if [ "$COMP_CWORD" -eq 1 ]; then
    words='detect rx soft many tx channel upgrade certify check lchannel lrx demo --help --version'
  else
    case $before in
      --bandwidth) words='20 40' ;;
      --*) ;;
      *)
        case ${COMP_WORDS[1]} in
          detect) words='--workers --window' ;;
          rx) words='--workers --window' ;;
          soft) words='--workers --window' ;;
          many) words='--workers --window' ;;
          channel) words='--seed --noise' ;;
          lchannel) words='--seed --noise' ;;
          lrx) words='--workers --window' ;;
          demo) words='--seed --noise --frames --mcs --bandwidth --length --workers --window' ;;
        esac
        ;;
    esac
  fi
  mapfile -t COMPREPLY < <(compgen -W "$words" -- "$word")
}
complete -F _radio radio
