# The words of `check` and `recheck`: several models, --verbose, and blocks that a proof file lacks. To be sourced.

# Splits the words behind `check` into the array options, with their values, and the array models. The first --verbose is none
# of the options, and sets verbose; --no-probe sets probe, --jobs with a number sets jobs, and they are none either.
split_words() {
  options=()
  models=()
  while [ $# -gt 0 ]; do
    case $1 in
      --)
        models+=("${@:2}")
        return
        ;;
      --nodes | --proof)
        options+=("${@:1:2}")
        shift
        ;;
      --verbose)
        [ -z "$verbose" ] || options+=("$1")
        verbose=yes
        ;;
      --no-probe) probe=no ;;
      --jobs | --jobs=*)
        [ "$1" = --jobs ] && [ $# -gt 1 ] && set -- "--jobs=$2" "${@:3}"
        if [ -z "$jobs" ] && [[ $1 =~ ^--jobs=[1-9][0-9]{0,3}$ ]]; then jobs=${1#*=}; else options+=("$1"); fi
        ;;
      -?*) options+=("$1") ;;
      *) models+=("$1") ;;
    esac
    [ $# -gt 0 ] && shift
  done
}

# check_parts MODEL: checks the specifications of a model one after the other. Gives AS_ONE where that isn't asked, or can't be.
check_parts() {
  local status
  [ -n "$verbose" ] || return "$AS_ONE"
  tool smv_tools.verbose "$built" "${options[@]}" -- "$1"
  status=$?
  [ "$status" -eq "$NO_COMMAND" ] && status=$AS_ONE
  return "$status"
}

# after_check MODEL STATUS MILLISECONDS: what packages of the tools have to say of a model that was checked.
after_check() {
  local hook package
  [ -z "$probe" ] && [ "$2" -le 2 ] || return 0
  for hook in "$tools"/smv_tools/*/after_check.py; do
    [ -f "$hook" ] || continue
    package=$(basename "$(dirname "$hook")")
    tool "smv_tools.$package.after_check" "$@" "${options[@]}" >&2
  done
}

# check_model MODEL WORD..: the words are those of a check of this model.
check_model() {
  local status begun
  begun=$(date +%s%N)
  check_parts "$1"
  status=$?
  if [ "$status" -eq "$AS_ONE" ]; then
    run_child "$built" "${@:2}"
    status=$?
    tell_end "$status" "${@:2}"
  fi
  after_check "$1" "$status" $((($(date +%s%N) - begun) / 1000000))
  return "$status"
}

# Runs the program on each model, and ends with the greatest status. Words that are no command for one are none for all.
check_each() {
  local model status greatest=0
  for model in "${models[@]}"; do
    printf 'model %s\n' "$model" || exit "$OUTPUT_FAILED"
    [ -z "$verbose" ] || tell "model $model"
    check_model "$model" check "${options[@]}" -- "$model"
    status=$?
    [ "$status" -gt "$greatest" ] && greatest=$status
    [ "$status" -eq "$USAGE" ] && break
  done
  [ "$greatest" -ne "$USAGE" ] || tool smv_tools.plain wrong "${words[@]}"
  exit "$greatest"
}

# Whether a proof file is read or saved.
has_proofs() {
  local option
  [ "${1-}" = recheck ] && return 0
  for option in ${options[@]+"${options[@]}"}; do
    case $option in --proof | --proof=*) return 0 ;; esac
  done
  return 1
}

# check_side_by_side: checks the models in so many runs at a time, and ends; comes back where there is no Python.
check_side_by_side() {
  local status
  tool smv_tools.machines.checking "$built" "$jobs" "${options[@]}" -- "${models[@]}"
  status=$?
  [ "$status" -ne "$NO_COMMAND" ] || { tell "--jobs needs python3: the check is run as one" && return; }
  [ "$status" -ne "$USAGE" ] || tool smv_tools.plain wrong "${words[@]}"
  tell_end "$status" "${words[@]}"
  exit "$status"
}

# Sets the array models to the models of `check`; empty for other commands. Sets the array words to the program's words.
read_words() {
  words=("$@")
  if [ "${1-}" = --verbose ] && [ "${2-}" = check ]; then
    set -- check --verbose "${@:3}"
  fi
  verbose=
  probe=
  jobs=
  split_words "${@:2}"
  if [ "${1-}" != check ]; then
    models=()
    verbose=
    jobs=
  elif [ -n "$verbose$probe$jobs" ]; then
    words=(check "${options[@]}" -- "${models[@]}")
  fi
}

# Clears verbose and jobs where the check has to be run as one, and says why. $1 is the build.
refuse_verbose() {
  if [ -z "$verbose$jobs" ]; then
    return
  elif [ -z "$1" ]; then
    tell "${verbose:+--verbose}${jobs:+--jobs} needs a build of the program, and none could be made: the check is run as one"
  elif has_proofs "${words[@]}"; then
    tell "with --proof the check is run as one, since one run makes the proof file"
  elif [ -n "$verbose" ] && [ -n "$jobs" ]; then
    tell "with --verbose one specification is tried after the other, and --jobs isn't used"
    jobs=
    return
  else
    return
  fi
  verbose=
  jobs=
}

# ranges NUMBER..: rising numbers as `1 to 5, 7`.
ranges() {
  local first=$1 last=$1 text="" number
  for number in "${@:2}" ""; do
    if [ -n "$number" ] && [ "$number" -eq $((last + 1)) ]; then
      last=$number
      continue
    fi
    text+="${text:+, }$first"
    [ "$last" -eq "$first" ] || text+=" to $last"
    first=$number
    last=$number
  done
  echo "$text"
}

# missing_blocks MODEL ANSWERS: the specifications of the model that the file with the answers of `recheck` doesn't have.
missing_blocks() {
  local count number missing=()
  # With this limit nothing is decided, so that the count comes at once.
  count=$("$built" check --nodes 1 -- "$1" 2>/dev/null | sed -n 's/^total \([0-9]*\) .*/\1/p')
  for ((number = 1; number <= ${count:-0}; number++)); do
    grep -q "^spec $number " "$2" || missing+=("$number")
  done
  [ "${#missing[@]}" -eq 0 ] || ranges "${missing[@]}"
}

# recheck_whole WORD..: a recheck, whose status isn't 0 where a specification has no block, unless --partial is given.
recheck_whole() {
  local status word partial= missing answers given=() operands=() behind=
  for word in "${@:2}"; do
    if [ "$word" = --partial ] && [[ " ${given[*]-} " != *" -- "* ]]; then
      partial=yes
      continue
    fi
    given+=("$word")
    case $behind$word in
      --nodes) behind=value ;;
      value*) behind= ;;
      -*) ;;
      *) operands+=("$word") ;;
    esac
  done
  answers=$(mktemp) || exit "$NO_PROGRAM"
  run_child "$built" recheck "${given[@]}" >"$answers"
  status=$?
  cat "$answers" || status=$OUTPUT_FAILED
  if [ "$status" -le 2 ] && [ -z "$partial" ] && ! grep -q '^model unanswered' "$answers"; then
    missing=$(missing_blocks "${operands[0]-}" "$answers")
    if [ -n "$missing" ]; then
      tell "no block for $missing: nothing is shown of it (--partial takes such a file)"
      [ "$status" -ne 0 ] || status=2
    fi
  fi
  rm -f "$answers"
  tell_end "$([ "$status" -eq 2 ] && [ -n "${missing-}" ] && echo 0 || echo "$status")" recheck "${given[@]}"
  return "$status"
}

# has_names WORD..: whether a word behind the model of `delay` or `strong` has a letter, as names of specifications do.
has_names() {
  local word model= value=
  for word in "${@:2}"; do
    case $value$word in
      --nodes) value=yes ;;
      yes*) value= ;;
      -?*) ;;
      *)
        [ -z "$model" ] || [[ ! $word =~ [A-Za-z] ]] || return 0
        model=yes
        ;;
    esac
  done
  return 1
}

# run_words WORD..: runs the program on the words, and ends.
run_words() {
  local status named
  case ${1-} in
    delay | strong)
      if has_names "$@"; then
        named=$(tool smv_tools.naming "$@")
        status=$?
        [ "$status" -eq 0 ] && eval "set -- $named" || [ "$status" -eq "$NO_COMMAND" ] || exit "$status"
      fi
      ;;
  esac
  read_words "$@"
  refuse_verbose "$name"
  if [ -z "$name" ] && has_proofs "${words[@]}"; then
    stop "proof files need a build of the program, and none could be made"
  elif [ -z "$name" ]; then
    run_tried "${words[@]}"
  elif [ -n "$jobs" ] && [ "${#models[@]}" -gt 0 ]; then
    check_side_by_side
  fi
  if [ "${#models[@]}" -gt 1 ] && ! has_proofs "${words[@]}"; then
    check_each
  elif [ "${#models[@]}" -eq 1 ]; then
    check_model "${models[0]}" "${words[@]}"
    status=$?
  elif [ "${1-}" = recheck ]; then
    recheck_whole "$@"
    status=$?
  else
    run_child "$built" "${words[@]}"
    status=$?
    tell_end "$status" "${words[@]}"
  fi
  [ "$status" -ne "$USAGE" ] || tool smv_tools.plain wrong "$@"
  exit "$status"
}
