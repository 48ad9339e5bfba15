# How the program is run, and what is told of its end. To be sourced.

# A long run shows how long it takes already and what memory, where standard error is a terminal; the line is taken away.
PATIENCE=2

show_progress() {
  local memory begun=$SECONDS
  while sleep 1 && kill -0 "$1" 2>/dev/null; do
    memory=$(sed -n 's/^VmRSS:[[:space:]]*\([0-9]*\) kB/\1/p' "/proc/$1/status" 2>/dev/null)
    [ -n "$memory" ] && [ $((SECONDS - begun)) -gt "$PATIENCE" ] || continue
    printf '\r\033[Ksmv: %d s, %d MB' $((SECONDS - begun)) $((memory / 1024)) >&2
  done
}

# on_signal NAME: ends the program and this script by the signal that came.
on_signal() {
  kill "$child" 2>/dev/null
  wait "$child" 2>/dev/null
  [ -z "$ticker" ] || { kill "$ticker" 2>/dev/null; printf '\r\033[K' >&2; }
  tell "ended after $((SECONDS - begun_run)) s, before all was put: check with --verbose tells each verdict when it is found"
  trap - "$1"
  kill -s "$1" $$
}

# run_child COMMAND..: runs the command, and gives its status.
run_child() {
  local status ticker=
  begun_run=$SECONDS
  if { : <&0; } 2>/dev/null; then
    "$@" <&0 &
  else
    "$@" <&- &
  fi
  child=$!
  [ ! -t 2 ] || { show_progress "$child" & ticker=$!; }
  trap 'on_signal INT' INT
  trap 'on_signal TERM' TERM
  trap 'on_signal HUP' HUP
  wait "$child"
  status=$?
  trap - INT TERM HUP
  if [ -n "$ticker" ]; then
    kill "$ticker" 2>/dev/null
    wait "$ticker" 2>/dev/null
    [ $((SECONDS - begun_run)) -le "$PATIENCE" ] || printf '\r\033[K' >&2
  fi
  return "$status"
}

# What became of a file that couldn't be loaded, or else of the output. The words are those of the program.
why_outside() {
  local word seen=
  for word in "${@:2}"; do
    case $word in
      --proof=*) seen=yes ;;
      --proof) seen=yes ;;
      -?*) ;;
      *) [ -z "$seen" ] || { seen=; continue; }
        if [ ! -e "$word" ] && [[ ! $word =~ ^[0-9:]+$ ]]; then
          echo "there is no file $word"
          return
        elif [ -e "$word" ] && { [ -d "$word" ] || [ ! -r "$word" ]; }; then
          echo "$word can't be read"
          return
        fi ;;
    esac
  done
  echo "the output can't be written whole, or a file can't be read or saved: what was put may be cut off"
}

# tell_end STATUS WORD..: says what an ending means and what to do, where the text that was put doesn't.
tell_end() {
  local most
  case $1 in
    2) tell "the node limit was met: ask for more by --nodes N (./smv help ${2-})" ;;
    4) tell "$(why_outside "${@:2}")" ;;
    6)
      most=$(ulimit -v)
      [ "$most" = unlimited ] && most= || most=" after $((most / 1024)) MB"
      tell "out of memory$most: allow more, or a lower --nodes" ;;
    129 | 13[0-9] | 14[0-9] | 15[0-9]) tell "the program was ended by signal $(($1 - 128)): what was put may be cut off" ;;
  esac
}
