# Written by tools/write-words from the table of commands (tools/smv_tools/words.py).
# Completion in bash of the words of smv, and of smv_run. To be sourced, or kept where bash-completion looks.

declare -gA _smv_operands=(
  [check]='model+'
  [recheck]='model file'
  [replay]='model file number'
  [delay]='model number number'
  [strong]='model word+'
  [gen]='number'
  [explain]='model word+'
  [trace]='model number'
  [simulate]='model'
  [import]='model'
  [report]='model+'
  [test]='model+'
  [fmt]='model+'
  [lsp]=''
  [diagnose]='model+'
  [help]='command'
)
declare -gA _smv_options=(
  [check]='--nodes --proof --verbose --jobs'
  [recheck]='--nodes --partial'
  [replay]='--nodes'
  [delay]='--nodes'
  [strong]='--nodes'
  [gen]='--check'
  [explain]='--nodes'
  [trace]='--nodes --report --whole --changed --only --csv --vcd --svg --path'
  [simulate]='--nodes --random --steps --seed --path'
  [import]='--out --from'
  [report]='--json --junit --sarif --html --out --only --nodes --no-proof --seconds --memory'
  [test]='--jobs --nodes --seconds --memory --retries --room --engine --sshlogin --partition --quiet'
  [fmt]='--check'
  [lsp]='--nodes --seconds'
  [diagnose]='--nodes --seconds'
  [help]=''
)
declare -gA _smv_values=(
  ['check --nodes']='number'
  ['check --proof']='file'
  ['check --jobs']='number'
  ['recheck --nodes']='number'
  ['replay --nodes']='number'
  ['delay --nodes']='number'
  ['strong --nodes']='number'
  ['explain --nodes']='number'
  ['trace --nodes']='number'
  ['trace --report']='file'
  ['trace --only']='word'
  ['trace --csv']='file'
  ['trace --vcd']='file'
  ['trace --svg']='file'
  ['trace --path']='file'
  ['simulate --nodes']='number'
  ['simulate --steps']='number'
  ['simulate --seed']='number'
  ['simulate --path']='file'
  ['import --out']='file'
  ['import -o']='file'
  ['import --from']='nusmv,cmu,'
  ['report --out']='file'
  ['report -o']='file'
  ['report --only']='word'
  ['report --nodes']='number'
  ['report --seconds']='number'
  ['report --memory']='number'
  ['test --jobs']='number'
  ['test --nodes']='number'
  ['test --seconds']='number'
  ['test --memory']='number'
  ['test --retries']='0,1,2,3,4,5,6,7,8,9,'
  ['test --room']='file'
  ['test --engine']='local,parallel,slurm,'
  ['test --sshlogin']='word'
  ['test --partition']='word'
  ['lsp --nodes']='number'
  ['lsp --seconds']='number'
  ['diagnose --nodes']='number'
  ['diagnose --seconds']='number'
)
_smv_program='check recheck replay delay strong gen'
_smv_own='--nodes --proof --check'
_smv_global='--version --help --proved'
_smv_before=--proved

# _smv_files WORD [PATTERN]: folders, and the files that match the pattern; without one every file.
_smv_files() {
  compopt -o filenames 2>/dev/null
  if [ $# -gt 1 ]; then
    mapfile -t COMPREPLY < <(compgen -d -- "$1"; compgen -f -X "!$2" -- "$1")
  else
    mapfile -t COMPREPLY < <(compgen -f -- "$1")
  fi
}

# _smv_kind KIND WORD: what the operand or the value of this kind may be.
_smv_kind() {
  case $1 in
    model) _smv_files "$2" "*.smv" ;;
    file) _smv_files "$2" ;;
    command) mapfile -t COMPREPLY < <(compgen -W "${!_smv_operands[*]}" -- "$2") ;;
    *,*) mapfile -t COMPREPLY < <(compgen -W "${1//,/ }" -- "$2") ;;
  esac
}

_smv() {
  local word=${COMP_WORDS[COMP_CWORD]} words=("${COMP_WORDS[@]:1:COMP_CWORD-1}")
  local service=smv at=0 count=0 behind="" command option kind known given=" ${COMP_WORDS[*]:1:COMP_CWORD-1} "
  COMPREPLY=()
  [ "${1##*/}" = smv ] || service=smv_run
  if [ "$service" = smv ] && [ "${words[0]-}" = "$_smv_before" ]; then
    words=("${words[@]:1}")
  elif [ "${#words[@]}" -eq 0 ] && [ "$service" = smv ] && [[ $word != [!-]* ]]; then
    mapfile -t COMPREPLY < <(compgen -W "${!_smv_operands[*]} $_smv_global" -- "$word")
    return
  fi
  if [ "${#words[@]}" -eq 0 ]; then
    [ "$service" = smv ] && known=${!_smv_operands[*]} || known=$_smv_program
    mapfile -t COMPREPLY < <(compgen -W "$known" -- "$word")
    return
  fi
  command=${words[0]}
  [[ -v _smv_operands[$command] ]] || return
  [ "$service" = smv ] || [[ " $_smv_program " == *" $command "* ]] || return
  # `--proof=FILE` is three words here.
  [ "$word" = "=" ] && word="" && words+=("=")
  while [ $((at += 1)) -lt "${#words[@]}" ]; do
    option=${words[at]}
    if [ -z "$behind" ] && [[ -v _smv_values["$command $option"] ]]; then
      [ "${words[at + 1]-}" = "=" ] && at=$((at + 1))
      at=$((at + 1))
      if [ "$at" -ge "${#words[@]}" ]; then
        _smv_kind "${_smv_values["$command $option"]}" "$word"
        return
      fi
    elif [ "$option" = -- ] && [ -z "$behind" ]; then
      behind=yes
    elif [ -n "$behind" ] || [[ $option != -?* ]]; then
      count=$((count + 1))
    fi
  done
  if [[ $word == -* ]] && [ -z "$behind" ]; then
    for option in ${_smv_options[$command]}; do
      [ "$service" = smv ] || [[ " $_smv_own " == *" $option "* ]] || continue
      [[ $given == *" $option "* ]] || COMPREPLY+=("$option")
    done
    mapfile -t COMPREPLY < <(compgen -W "${COMPREPLY[*]}" -- "$word")
    return
  fi
  for kind in ${_smv_operands[$command]}; do
    if [ "$count" -eq 0 ] || { [[ $kind == *+ ]] && [ "$service" = smv ]; }; then
      _smv_kind "${kind%+}" "$word"
      return
    fi
    count=$((count - 1))
  done
}

complete -F _smv smv smv_run ./smv
