# What ./smv does with its words. To be sourced, with `here`, the folder of ./smv, and `tools`, that of these files.
# Where it is installed the program stands beside ./smv; in the repository it is a build of the sources (builds.sh).

NO_PROGRAM=70
OUTPUT_FAILED=4
USAGE=5
AS_ONE=75
NO_COMMAND=127

installed=yes
if [ -f "$tools/builds.sh" ]; then
  installed=
  . "$tools/builds.sh"
  . "$tools/tried.sh"
fi
. "$tools/running.sh"
. "$tools/checking.sh"

tell() {
  echo "smv: $1" >&2
}

stop() {
  tell "$1"
  exit "$NO_PROGRAM"
}

# The interpreter for the tools: Debian's, since its libraries are there, or else the one of the path.
interpreter() {
  command -v "${SMV_PYTHON:-/usr/bin/python3}" || command -v python3
}

# tool WORD..: runs a module of the tools; NO_COMMAND where there is no Python.
tool() {
  local python
  python=$(interpreter) || return "$NO_COMMAND"
  SMV_PROGRAM=${built-} SMV_BUILD=${name-} PYTHONPATH=$tools${PYTHONPATH:+:$PYTHONPATH} PYTHONDONTWRITEBYTECODE=${installed:+1} \
    "$python" -P -m "$@"
}

# find_program: sets `built`, the program's path, and `name`, its build's; `name` is empty where only `rt try` can run it.
find_program() {
  if [ -n "$installed" ]; then
    built=$here/smv_run
    name=$(sed -n 's/^build //p' "$tools/version" 2>/dev/null)
    [ -x "$built" ] || stop "there is no program $built"
    return
  fi
  name=$(standing_build)
  if [ -z "$name" ]; then
    command -v rt >/dev/null || stop "rt, the command of the Rattle toolchain, isn't on the path, and no build stands"
    "$tools/build-unproved"
    [ $? -ne 1 ] || exit "$NO_PROGRAM"
    name=$(standing_build)
  fi
  built=$out/$name
}

# Whether the build is proved, on standard error: once for each build, and not with SMV_QUIET.
tell_build() {
  local told
  [ -z "${SMV_QUIET-}" ] && [ -z "$installed" ] || return 0
  told=$out/.told-$name
  if [ -z "$name" ]; then
    tell "this program is not proved, and is slow: rt try builds and runs it"
  elif [ ! -e "$told" ] && { (set -C && : >"$told") 2>/dev/null || [ ! -e "$told" ]; }; then
    find "$out" -name '.told-*' ! -path "$told" -delete 2>/dev/null
    case $name in
      proved-*) tell "this build is proved" ;;
      *) tell "this build is not proved (./smv --proved .. proves it first)" ;;
    esac
  fi
}

# The version, the commit, and whether the build is proved.
version() {
  local proved="not proved"
  if [ -f "$tools/version" ]; then
    sed '/^build /d' "$tools/version"
  else
    echo "smv $(cat "$tools/VERSION")"
    echo "commit $(git -C "$here" describe --always --dirty --abbrev=12 2>/dev/null || echo unknown)"
  fi
  case $name in proved-*) proved=proved ;; esac
  echo "program ${name:-none}, $proved"
}

# Whether a word asks for the help of the command.
asks_help() {
  local word
  for word in "$@"; do
    case $word in
      --) return 1 ;;
      --help | -h) return 0 ;;
    esac
  done
  return 1
}

# show_help [WORD]: the help, or the program's usage where there is no Python.
show_help() {
  local status
  tool smv_tools help ${1+"$1"}
  status=$?
  [ "$status" -eq "$NO_COMMAND" ] || exit "$status"
  tell "help needs python3, so here is the usage of the program alone"
  find_program
  "$built"
  exit 0
}

# run_tool WORD..: runs a command of the tools, and ends; comes back where they have no such command, or there is no Python.
run_tool() {
  local status
  tool smv_tools "$@"
  status=$?
  [ "$status" -eq "$NO_COMMAND" ] || exit "$status"
  [ -n "$(interpreter)" ] ||
    tell "without python3 there are the program's commands alone: apt-get install python3 python3-click python3-rich"
}

# replays_report WORD..: judges the paths of a saved report, where the words ask for that; comes back where they don't.
replays_report() {
  local word before= operands=()
  for word in "${@:2}"; do
    [ "$before" = --nodes ] || [[ $word == -?* ]] || operands+=("$word")
    before=$word
  done
  case ${#operands[@]} in
    2) [ -f "${operands[1]}" ] && head -c 6 -- "${operands[1]}" | grep -qE '^(spec 1|model |total )' || return 0 ;;
    3) ;;
    *) return 0 ;;
  esac
  [ -z "$name" ] || run_tool "$@"
}

main() {
  local status
  case ${1-} in
    help) show_help "${@:2:1}" ;;
    --help | -h) show_help ;;
    check | recheck | replay | delay | strong | gen | explain) ! asks_help "${@:2}" || show_help "$1" ;;
  esac
  [ "${1-} ${2-}" != "--verbose --proved" ] || set -- --proved --verbose "${@:3}"
  if [ "${1-}" = --proved ]; then
    shift
    [ -z "$installed" ] || stop "--proved proves the sources, and only the program is installed"
    command -v rt >/dev/null || stop "rt, the command of the Rattle toolchain, isn't on the path"
    "$tools/build-proved" || exit "$NO_PROGRAM"
  fi
  find_program
  case ${1-} in
    --version) version && exit 0 ;;
    replay) replays_report "$@" ;;
    check | recheck | delay | strong | gen | --verbose | "") ;;
    *) [ -z "$name" ] || run_tool "$@" ;;
  esac
  tell_build
  run_words "$@"
}
