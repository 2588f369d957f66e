# bash completion of opaq, made by tools/manual from the program's own help
_opaq() {
  local here=${COMP_WORDS[COMP_CWORD]} before=${COMP_WORDS[COMP_CWORD - 1]} words
  COMPREPLY=()
  case $before in --order | --budget | --nodes | --workers) return ;; '<') COMPREPLY=($(compgen -f -- "$here")); return ;; esac
  case ${COMP_WORDS[1]} in
    check) words='--order -h --help' ;;
    decide) words='--budget --cert -h --help' ;;
    verify) words='-h --help' ;;
    refute) words='-h --help' ;;
    confirm) words='-h --help' ;;
    audit) words='--nodes --workers --budget -h --help' ;;
    help) words='check decide verify refute confirm audit' ;;
    *) words='check decide verify refute confirm audit help -h --help -V --version' ;;
  esac
  COMPREPLY=($(compgen -W "$words" -- "$here"))
}
complete -o default -F _opaq opaq
