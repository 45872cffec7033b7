# Completion of gbalink, gbalink-view, gbalink-keys and gbalink-batch for bash.

# Folders, and the files of these patterns, that begin with the word that is typed.
_gbalink_files() {
  local word=${COMP_WORDS[COMP_CWORD]} pattern found
  mapfile -t COMPREPLY < <(compgen -d -- "$word")
  for pattern in "$@"; do
    mapfile -t found < <(compgen -f -X "!$pattern" -- "$word")
    COMPREPLY+=("${found[@]}")
  done
  compopt -o filenames 2>/dev/null
}

# These words.
_gbalink_words() {
  mapfile -t COMPREPLY < <(compgen -W "$*" -- "${COMP_WORDS[COMP_CWORD]}")
}

# The words with which gbalink run wrote, by their logs.
_gbalink_runs() {
  _gbalink_files '*.log'
  COMPREPLY=("${COMPREPLY[@]%.log}")
}

_gbalink() {
  case "$COMP_CWORD:${COMP_WORDS[1]}" in
  1:*) _gbalink_words run asm dis tdis gen trace freeze resume bios --job --help --version ;;
  2:run | 2:trace | 2:freeze | 2:resume) _gbalink_files '*.job' '*.log' ;;
  3:resume) _gbalink_files '*.frozen' ;;
  2:asm) _gbalink_files '*.s' ;;
  2:dis | 2:tdis) _gbalink_files '*.bios' '*.gba' '*.bin' ;;
  *:--job)
    case ${COMP_WORDS[COMP_CWORD]} in
    -*) _gbalink_words -n -t --all ;;
    *) _gbalink_files '*.bios' '*.gba' '*.bin' ;;
    esac
    ;;
  2:gen | 3:gen | 3:trace | 4:trace | 3:freeze) ;;
  *) _gbalink_files ;;
  esac
}

_gbalink_view() {
  case "$COMP_CWORD:${COMP_WORDS[COMP_CWORD - 1]}:${COMP_WORDS[COMP_CWORD]}" in
  1:*:-*) _gbalink_words --listing --frozen --help ;;
  1:* | *:--against:*) _gbalink_runs ;;
  *:--frozen:*) _gbalink_files '*.frozen' ;;
  *:--sound:*) _gbalink_words 0 1 2 3 mixed ;;
  2:*) _gbalink_words --frame --frames --video --sound --transfers --page --against ;;
  *:*:-*) _gbalink_words --columns --every --hashes --sound --against --from --to --trace ;;
  *:--from:* | *:--to:*) ;;
  *) _gbalink_files '*.png' '*.mp4' '*.wav' '*.svg' '*.html' '*.bios' '*.gba' '*.txt' ;;
  esac
}

_gbalink_keys() {
  case "$COMP_CWORD:${COMP_WORDS[COMP_CWORD - 1]}:${COMP_WORDS[COMP_CWORD]}" in
  *:*:-*) _gbalink_words --first --frame --show --help ;;
  *:--first:* | *:--frame:*) ;;
  1:*) _gbalink_files '*.bk2' '*.vbm' '*.txt' ;;
  *) _gbalink_files '*.keys' ;;
  esac
}

_gbalink_batch() {
  case "$COMP_CWORD:${COMP_WORDS[COMP_CWORD - 1]}:${COMP_WORDS[COMP_CWORD]}" in
  *:*:-*) _gbalink_words -j --against --help ;;
  *:-j:*) ;;
  2:*) _gbalink_files ;;
  *) _gbalink_files '*.list' '*.table' '*table' ;;
  esac
}

complete -F _gbalink gbalink
complete -F _gbalink_view gbalink-view
complete -F _gbalink_keys gbalink-keys
complete -F _gbalink_batch gbalink-batch
