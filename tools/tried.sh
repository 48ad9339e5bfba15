# How ./smv runs the program where no optimised build can be made: by `rt try --cases`, which builds anew, once for all
# models, and is slow. To be sourced after builds.sh, with the arrays options and models that ./smv has read.

# add_case FOLDER WORD..: one more call of the program, with these words.
add_case() {
  local name
  name=$(printf '%s/%03d' "$1" "$cases")
  : >"$name"
  shift
  [ $# -eq 0 ] || printf '%s\n' "$@" >"$name.args"
  cases=$((cases + 1))
}

# add_cases FOLDER WORD..: a call for each model, or one with the words as they are. The program runs in a folder of its
# own, so each model that is there is copied to it, under a short name.
add_cases() {
  local folder=$1 model
  shift
  for model in "${models[@]}"; do
    [ -f "$model" ] && data+=(--data "$cases.smv=$(realpath "$model")")
    add_case "$folder" check "${options[@]}" -- "$cases.smv"
  done
  [ "${#models[@]}" -gt 0 ] || add_case "$folder" "$@"
}

# Puts what the program put, with the name of each model before it where there are several.
put_reports() {
  local line
  while IFS= read -r line; do
    case $line in
      "== "[0-9][0-9][0-9]) [ "${#models[@]}" -lt 2 ] || printf 'model %s\n' "${models[10#${line#== }]}" ;;
      *) printf '%s\n' "$line" ;;
    esac
  done <"$1"
}

# The greatest status of the calls; fails where one has none.
greatest_status() {
  local ended
  ended=$(sed -n 's/^case=[0-9]* run=ended status=\([0-9]*\) .*/\1/p' "$1" | sort -n)
  [ "$(wc -w <<<"$ended")" -eq "$cases" ] && tail -n 1 <<<"$ended"
}

# run_tried WORD..: runs the program on the words, or on each model, and ends with its status.
run_tried() {
  local room status cases=0 data=()
  room=$(mktemp -d) || exit "$NO_PROGRAM"
  trap 'rm -rf "$room"' EXIT
  mkdir "$room/cases"
  add_cases "$room/cases" "$@"
  (cd "$program" && rt try --seconds 3600 "${data[@]}" --cases "$room/cases") </dev/null >"$room/put" 2>"$room/said"
  if status=$(greatest_status "$room/said"); then
    put_reports "$room/put"
    exit "$status"
  fi
  cat "$room/said" >&2
  exit "$NO_PROGRAM"
}
