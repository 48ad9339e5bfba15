# The builds of the program smv_run that stand in crates/smv_run/out, to be sourced by scripts.
# A build is named by the checksum of what it is made of:
#   unproved-SUM   src/ of smv_run and of the crates below it, their lines of crates.txt, and the kit
#   proved-SUM     the same, with specs/ and proofs/ of these crates
# Contents count, and neither times nor places: a copy of the repository has the same sums.
# `rt ci` empties the folder; tools/keep-proved keeps what it proved.

top=$(dirname "$(dirname "$(readlink -f "${BASH_SOURCE[0]}")")")
program=$top/crates/smv_run
out=$program/out

# The lines of crates.txt of smv_run and of the crates below it, without comments, lowest name first.
program_lines() {
  awk '
    function take(name, names, count, i) {
      if (!(name in line) || name in taken) return
      taken[name] = 1
      print line[name]
      count = split(below[name], names, " ")
      for (i = 1; i <= count; i++) take(names[i])
    }
    { sub(/#.*/, "") }
    /:/ { split($0, sides, ":"); split(sides[1], words, " "); line[words[1]] = $0; below[words[1]] = sides[2] }
    END { take("smv_run") }
  ' "$top/crates.txt" | LC_ALL=C sort
}

kit_folder() {
  dirname "$(dirname "$(readlink -f "$(command -v rt)")")"
}

# What `rt version` prints: the text of a file of the kit, since a start of rt takes longer than all the rest here. Where there
# is no rt, that of the kit that made the last build.
kit_version() {
  if command -v rt >/dev/null; then
    cat "$(kit_folder)/KIT-ID" 2>/dev/null || rt version
  else
    cat "$out/kit" 2>/dev/null
  fi
}

# sum_of PART..: the checksum of these folders of the program's crates, with their lines and the kit.
sum_of() {
  local lines line part folders=()
  lines=$(program_lines)
  while read -r line; do
    for part in "$@"; do
      folders+=("crates/${line%%[ :]*}/$part")
    done
  done <<<"$lines"
  {
    kit_version
    echo "$lines"
    cd "$top" && find "${folders[@]}" -type f -print0 2>/dev/null | LC_ALL=C sort -z | xargs -0 sha256sum
  } | sha256sum | cut -c 1-32
}

unproved_name() {
  echo "unproved-$(sum_of src)"
}

proved_name() {
  echo "proved-$(sum_of src specs proofs)"
}

# The build of the sources as they are, the proved one first; nothing where none stands.
standing_build() {
  local name
  if compgen -G "$out/proved-*" >/dev/null; then
    name=$(proved_name)
    [ -x "$out/$name" ] && echo "$name" && return
  fi
  name=$(unproved_name)
  [ -x "$out/$name" ] && echo "$name"
}

# keep_build NAME FILE: keeps the file as the build of this name, in place of older ones of its kind.
# It gets its name when it is whole.
keep_build() {
  local other
  mkdir -p "$out" && kit_version >"$out/kit" && cp "$2" "$out/.new-$$" && chmod +x "$out/.new-$$" && mv "$out/.new-$$" "$out/$1" || return 1
  for other in "$out/${1%%-*}"-*; do
    [ "$other" = "$out/$1" ] || rm -f "$other"
  done
}

# alone KIND COMMAND..: runs the command while no other one runs that makes builds of this kind: the second waits. The lock
# is the file under number 9, which what the command starts in the background must not keep.
alone() {
  local kind=$1
  shift
  mkdir -p "$out" && touch "$out/$kind.lock" || return 2
  (
    if command -v flock >/dev/null && ! flock -n 9; then
      tell "another call is at it: this one waits, and takes what that makes"
      flock 9
    fi
    "$@"
  ) 9>"$out/$kind.lock"
}

# ticking WHAT COMMAND..: runs the command. On a terminal a line tells for how many seconds it has run; the line is taken away.
ticking() {
  local what=$1 status ticker= begun=$SECONDS
  shift
  if [ -t 2 ]; then
    while sleep 1 && kill -0 "$$" 2>/dev/null; do
      printf '\r\033[Ksmv: %s: %d s' "$what" $((SECONDS - begun)) >&2
    done &
    ticker=$!
    trap 'kill "$ticker" 2>/dev/null' EXIT
  fi
  "$@"
  status=$?
  if [ -n "$ticker" ]; then
    kill "$ticker" 2>/dev/null
    wait "$ticker" 2>/dev/null
    printf '\r\033[K' >&2
  fi
  return "$status"
}

# tell TEXT: a line on standard error, in place of the one that ticks.
tell() {
  [ -z "${ticker-}" ] || printf '\r\033[K' >&2
  echo "smv: $1" >&2
}
