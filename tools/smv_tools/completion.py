"""Completion for bash, zsh and fish, from the table of commands. Only the standard library is used here."""
from __future__ import annotations

from collections.abc import Iterator

from .words import GLOBAL_OPTIONS, PROGRAM_COMMANDS, Command, Operand, Option, commands

HEAD = "# Written by tools/write-words from the table of commands (tools/smv_tools/words.py).\n"
# The options that the program itself takes; of those of its commands the others are of the start script.
OF_PROGRAM = ("--nodes", "--proof", "--check")
BEFORE = "--proved"


def kinds(command: Command) -> str:
    """The kinds of the operands, with a plus sign behind one that may stand again."""
    return " ".join(it.kind + ("+" if it.many else "") for it in command.operands)


# ---- bash

BASH = r'''# Completion in bash of the words of smv, and of smv_run. To be sourced, or kept where bash-completion looks.

# _smv_files WORD [PATTERN]: folders, and the files that match the pattern; without one every file.
_smv_files() {
  compopt -o filenames 2>/dev/null
  if [ $# -gt 1 ]; then
    mapfile -t COMPREPLY < <(compgen -d -- "$1"; compgen -f -X "!$2" -- "$1")
  else
    mapfile -t COMPREPLY < <(compgen -f -- "$1")
  fi
}

# _smv_kind KIND WORD: what the operand or the value of this kind may be.
_smv_kind() {
  case $1 in
    model) _smv_files "$2" "*.smv" ;;
    file) _smv_files "$2" ;;
    command) mapfile -t COMPREPLY < <(compgen -W "${!_smv_operands[*]}" -- "$2") ;;
    *,*) mapfile -t COMPREPLY < <(compgen -W "${1//,/ }" -- "$2") ;;
  esac
}

_smv() {
  local word=${COMP_WORDS[COMP_CWORD]} words=("${COMP_WORDS[@]:1:COMP_CWORD-1}")
  local service=smv at=0 count=0 behind="" command option kind known given=" ${COMP_WORDS[*]:1:COMP_CWORD-1} "
  COMPREPLY=()
  [ "${1##*/}" = smv ] || service=smv_run
  if [ "$service" = smv ] && [ "${words[0]-}" = "$_smv_before" ]; then
    words=("${words[@]:1}")
  elif [ "${#words[@]}" -eq 0 ] && [ "$service" = smv ] && [[ $word != [!-]* ]]; then
    mapfile -t COMPREPLY < <(compgen -W "${!_smv_operands[*]} $_smv_global" -- "$word")
    return
  fi
  if [ "${#words[@]}" -eq 0 ]; then
    [ "$service" = smv ] && known=${!_smv_operands[*]} || known=$_smv_program
    mapfile -t COMPREPLY < <(compgen -W "$known" -- "$word")
    return
  fi
  command=${words[0]}
  [[ -v _smv_operands[$command] ]] || return
  [ "$service" = smv ] || [[ " $_smv_program " == *" $command "* ]] || return
  # `--proof=FILE` is three words here.
  [ "$word" = "=" ] && word="" && words+=("=")
  while [ $((at += 1)) -lt "${#words[@]}" ]; do
    option=${words[at]}
    if [ -z "$behind" ] && [[ -v _smv_values["$command $option"] ]]; then
      [ "${words[at + 1]-}" = "=" ] && at=$((at + 1))
      at=$((at + 1))
      if [ "$at" -ge "${#words[@]}" ]; then
        _smv_kind "${_smv_values["$command $option"]}" "$word"
        return
      fi
    elif [ "$option" = -- ] && [ -z "$behind" ]; then
      behind=yes
    elif [ -n "$behind" ] || [[ $option != -?* ]]; then
      count=$((count + 1))
    fi
  done
  if [[ $word == -* ]] && [ -z "$behind" ]; then
    for option in ${_smv_options[$command]}; do
      [ "$service" = smv ] || [[ " $_smv_own " == *" $option "* ]] || continue
      [[ $given == *" $option "* ]] || COMPREPLY+=("$option")
    done
    mapfile -t COMPREPLY < <(compgen -W "${COMPREPLY[*]}" -- "$word")
    return
  fi
  for kind in ${_smv_operands[$command]}; do
    if [ "$count" -eq 0 ] || { [[ $kind == *+ ]] && [ "$service" = smv ]; }; then
      _smv_kind "${kind%+}" "$word"
      return
    fi
    count=$((count - 1))
  done
}

complete -F _smv smv smv_run ./smv
'''


def quoted(text: str) -> str:
    """The text in single quotes, in which nothing is read."""
    return "'" + text.replace("'", "'\\''") + "'"


def value_kind(option: Option) -> str:
    return ",".join(option.choices) + "," if option.choices else option.kind


def bash() -> str:
    lines = ["declare -gA _smv_operands=("]
    lines += [f"  [{it.name}]={quoted(kinds(it))}" for it in commands().values()]
    lines += [")", "declare -gA _smv_options=("]
    lines += [f"  [{it.name}]={quoted(' '.join(option.name for option in it.options))}" for it in commands().values()]
    lines += [")", "declare -gA _smv_values=("]
    lines += [f"  [{quoted(f'{it.name} {name}')}]={quoted(value_kind(option))}" for it in commands().values()
              for option in it.options if option.value for name in (option.name, option.short) if name]
    lines += [")", f"_smv_program={quoted(' '.join(it.name for it in PROGRAM_COMMANDS))}", f"_smv_own={quoted(' '.join(OF_PROGRAM))}",
              f"_smv_global={quoted(' '.join(it.name for it in GLOBAL_OPTIONS))}", f"_smv_before={BEFORE}"]
    return HEAD + BASH.replace("\n\n# _smv_files", "\n\n" + "\n".join(lines) + "\n\n# _smv_files", 1)


# ---- zsh

ZSH_KINDS = {"model": "_files -g \"*.smv\"", "file": "_files", "command": "_smv_commands"}


def zsh_text(text: str) -> str:
    """The text in a word of `_arguments`: brackets, colons and quotes stand for themselves."""
    for sign in "\\[]:":
        text = text.replace(sign, f"\\{sign}")
    return text.replace("'", "'\\''")


def zsh_action(kind: str, choices: tuple[str, ...] = ()) -> str:
    return f"({' '.join(choices)})" if choices else ZSH_KINDS.get(kind, " ")


def zsh_option(option: Option) -> Iterator[str]:
    for name in filter(None, (option.name, option.short)):
        again = "*" if option.many else ""
        value = f"{'=' if name.startswith('--') else ''}[{zsh_text(option.summary)}]" if option.value else f"[{zsh_text(option.summary)}]"
        more = f":{zsh_text(option.value)}:{zsh_action(option.kind, option.choices)}" if option.value else ""
        yield f"'{again}{name}{value}{more}'"


def zsh_operand(place: int, operand: Operand) -> str:
    number = "*" if operand.many else f"{place}"
    return f"'{number}:{':' if operand.optional and not operand.many else ''}{operand.name.lower()}:{zsh_action(operand.kind)}'"


def zsh() -> str:
    lines = ["#compdef smv smv_run ./smv", HEAD.rstrip("\n"), "# To be kept in a folder of fpath.", "", "_smv_commands() {",
             "  local -a commands", "  commands=("]
    lines += [f"    '{it.name}:{zsh_text(it.summary)}'" for it in commands().values()]
    lines += ["  )", "  _describe -t commands command commands", "}", "", "if [[ $words[2] == --proved && CURRENT -gt 2 ]]; then",
              '  words=("$words[1]" "${(@)words[3,-1]}")', "  (( CURRENT -= 1 ))", "fi", "if (( CURRENT == 2 )); then",
              "  _smv_commands", "  _arguments " + " ".join(it for option in GLOBAL_OPTIONS for it in zsh_option(option)), "  return",
              "fi", "local command=$words[2]", 'words=("${(@)words[2,-1]}")', "(( CURRENT -= 1 ))", "case $command in"]
    for command in commands().values():
        parts = [it for option in command.options for it in zsh_option(option)]
        parts += [zsh_operand(place, it) for place, it in enumerate(command.operands, 1)]
        lines += [f"  {command.name})", "    _arguments " + " \\\n      ".join(parts) + " ;;"]
    return "\n".join([*lines, "  *)", "    return 1 ;;", "esac"]) + "\n"


# ---- fish

def fish_option(option: Option, condition: str) -> str:
    text = f"complete -c smv -n {condition} -l {option.name.removeprefix('--')}"
    text += f" -s {option.short.removeprefix('-')}" if option.short else ""
    if option.choices:
        text += f" -x -a {quoted(' '.join(option.choices))}"
    elif option.value:
        text += " -r -F" if option.kind in ("file", "model") else " -x"
    return f"{text} -d {fish_quoted(option.summary)}"


def fish_quoted(text: str) -> str:
    return "'" + text.replace("\\", "\\\\").replace("'", "\\'") + "'"


def fish() -> str:
    first = "'not __fish_seen_subcommand_from " + " ".join(commands()) + "'"
    lines = [HEAD.rstrip("\n"), "complete -c smv -f"]
    lines += [f"complete -c smv -n {first} -a {it.name} -d {fish_quoted(it.summary)}" for it in commands().values()]
    lines += [fish_option(option, first) for option in GLOBAL_OPTIONS]
    for command in commands().values():
        condition = f"'__fish_seen_subcommand_from {command.name}'"
        lines += [fish_option(option, condition) for option in command.options]
        operands = {it.kind for it in command.operands}
        if operands & {"model", "file"}:
            ending = " .smv" if "file" not in operands else " ''"
            lines.append(f"complete -c smv -n {condition} -a '(__fish_complete_suffix{ending})'".replace(" ''", ""))
        if "command" in operands:
            lines.append(f"complete -c smv -n {condition} -a '{' '.join(commands())}'")
    return "\n".join(lines) + "\n"
