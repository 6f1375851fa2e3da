# Made by packaging/make-pages from packaging/words.txt: change that table.
_afkv() {
  # What stands before the word under the cursor decides what may stand there.
  local next=
  case "${COMP_WORDS[*]:1:COMP_CWORD-1}" in
    '') next='trace replay' ;;
    'replay') next='--every' ;;
    'replay --every') next='0' ;;
  esac
  mapfile -t COMPREPLY < <(compgen -W "$next" -- "$2")
}
# Where no word may stand, as behind `<`, names of files are completed.
complete -o default -F _afkv afkv
