# Completion of galley-pages for bash.
_galley_pages() {
  local word=${COMP_WORDS[COMP_CWORD]} before=${COMP_WORDS[COMP_CWORD-1]}
  case $before in
    --count) COMPREPLY=(); return ;;
    -o) compopt -o filenames; mapfile -t COMPREPLY < <(compgen -f -- "$word"); return ;;
  esac
  case $word in
    -*) mapfile -t COMPREPLY < <(compgen -W '-o --json --points --raw --spreads --count --quiet --help --version' -- "$word"); return ;;
  esac
  if [ "${COMP_WORDS[1]}" = why ] && [ "$COMP_CWORD" -eq 3 ] && [ -f "${COMP_WORDS[2]}" ]; then     # the floats and notes of the galley
    mapfile -t COMPREPLY < <(compgen -W "$(awk '$1 == "float" || $1 == "margin" {print $2}' "${COMP_WORDS[2]}")" -- "$word")
    return
  fi
  mapfile -t COMPREPLY < <(compgen -f -- "$word")
  compopt -o filenames
  [ "$COMP_CWORD" -ne 1 ] ||
    mapfile -t -O "${#COMPREPLY[@]}" COMPREPLY < <(compgen -W 'report trace rate best why plain print lines dvi dvilist gen' -- "$word")
}
complete -F _galley_pages galley-pages
