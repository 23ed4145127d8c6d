# Completion of bmimd's words for bash: source this file.
# One of these words, or file: and a file. The shell splits words at a colon, so what stands before it is taken off again.
_bmimd_or_file() {
  local word=$2 front=
  case $word in
    file:*)
      [[ $COMP_WORDBREAKS == *:* ]] || front=file:
      mapfile -t COMPREPLY < <(compgen -f -- "${word#file:}")
      COMPREPLY=("${COMPREPLY[@]/#/$front}") ;;
    seed:*) COMPREPLY=() ;;
    *)
      mapfile -t COMPREPLY < <(compgen -W "$1 file:" -- "$word")
      [[ ${COMPREPLY[0]:-} == *: ]] && compopt -o nospace ;;
  esac
}
_bmimd() {
  local line=${COMP_LINE:0:COMP_POINT} word= words=() place command
  # the words between blanks, whatever the shell splits them at
  read -ra words <<<"$line"
  [[ $line == *[[:blank:]] ]] && words+=("")
  place=$((${#words[@]} - 1)) word=${words[-1]} command=${words[1]:-}
  COMPREPLY=()
  if [ "$place" -eq 1 ]; then
    mapfile -t COMPREPLY < <(compgen -W "eval go compile show run trace check soak" -- "$word")
    return
  fi
  case $command:$place in
    eval:2 | go:2 | compile:2 | compile:4 | show:2 | run:2 | trace:2 | check:2) mapfile -t COMPREPLY < <(compgen -f -- "$word") ;;
    go:3 | compile:3 | show:3) _bmimd_or_file "default" "$word" ;;
    go:4 | run:3 | trace:3) mapfile -t COMPREPLY < <(compgen -W "sbm dbm" -- "$word") ;;
    go:5 | run:4 | trace:4) _bmimd_or_file "least most seed:" "$word" ;;
    eval:3 | go:6 | run:5 | trace:5) _bmimd_or_file "none" "$word" ;;
    soak:2) mapfile -t COMPREPLY < <(compgen -W "1 2 3" -- "$word") ;;
    soak:3) mapfile -t COMPREPLY < <(compgen -W "100 1000 10000" -- "$word") ;;
    eval:4 | go:7 | run:6 | trace:6) mapfile -t COMPREPLY < <(compgen -W "1000 1000000 1000000000" -- "$word") ;;
  esac
}
complete -F _bmimd -o filenames bmimd ./bmimd
