"""Completions of the command `shq` for bash and zsh, made from the table of commands."""
from shq_tools.commands import COMMANDS, GENERAL_OPTIONS


def words_of(options):
    """The options of a command as words; one whose value stands behind an equals sign ends with that sign."""
    words = []
    for option in options:
        words.append(option.name)
        if option.may_lack_value:
            words.append(f"{option.name}={option.value}")
    return words


def takes_value(options):
    """The options behind which a word with their value stands."""
    return [it for it in options if it.value and not it.may_lack_value]


def bash_cases():
    """For each command its options, and how many words stand before its files."""
    for command in COMMANDS.values():
        words = " ".join([*words_of(command.options), "--help", *["budget"] * command.has_budget])
        files = "yes" if command.files else ""
        yield f"    {command.name}) words='{words}' operands={len(command.operands)} files={files} ;;"


def bash_completion():
    """What bash reads."""
    every = {option.name: option for command in COMMANDS.values() for option in command.options}
    of_files = "|".join(it.name for it in takes_value(every.values()) if it.value == "FILE")
    of_others = "|".join(it.name for it in takes_value(every.values()) if it.value != "FILE")
    general = " ".join(it.name for it in GENERAL_OPTIONS)
    lines = [
        "# Completion of shq for bash: commands, options and files.",
        "_shq() {",
        '  local word=${COMP_WORDS[COMP_CWORD]} before=${COMP_WORDS[COMP_CWORD - 1]} words="" operands=0 files=""',
        "  COMPREPLY=()",
        "  if [ \"$COMP_CWORD\" = 1 ]; then",
        f"    mapfile -t COMPREPLY < <(compgen -W '{' '.join(COMMANDS)} {general}' -- \"$word\")",
        "    return",
        "  fi",
        '  case "$before" in',
        f'    {of_files}) mapfile -t COMPREPLY < <(compgen -f -- "$word"); return ;;',
        f"    {of_others}|budget) return ;;",
        "  esac",
        '  case "${COMP_WORDS[1]}" in',
        *bash_cases(),
        "  esac",
        '  case "$word" in',
        "    -*) mapfile -t COMPREPLY < <(compgen -W \"$words\" -- \"$word\") ;;",
        '    *) if [ -n "$files" ] && [ "$COMP_CWORD" -gt "$((1 + operands))" ]; then',
        '         mapfile -t COMPREPLY < <(compgen -f -- "$word")',
        "       fi ;;",
        "  esac",
        "}",
        "complete -o filenames -F _shq shq",
    ]
    return "\n".join(lines) + "\n"


def zsh_quoted(text):
    """A text within single quotes, as a description within brackets."""
    return text.replace("\\", "\\\\").replace("[", "\\[").replace("]", "\\]").replace(":", "\\:").replace("'", "'\\''")


def zsh_options(options):
    """The options of a command, as `_arguments` wants them."""
    for option in options:
        text = zsh_quoted(option.text)
        if not option.value:
            yield f"'{option.name}[{text}]'"
        elif option.may_lack_value:
            yield f"'{option.name}=-[{text}]::value:({option.value})'"
        elif option.value == "FILE":
            yield f"'{option.name}[{text}]:file:_files'"
        else:
            yield f"'{option.name}[{text}]:{option.value}: '"


def zsh_cases():
    """For each command its options and operands."""
    for command in COMMANDS.values():
        operands = [f"':{it}: '" for it in command.operands] + [f"'::{it.lower()}:_files'" for it in command.files]
        words = [*zsh_options(command.options), "'--help[what it is for]'", *operands]
        yield f"    {command.name}) _arguments {' '.join(words)} ;;"


def zsh_completion():
    """What zsh reads."""
    general = "\n".join(f"    '{it.name}:{zsh_quoted(it.text)}'" for it in GENERAL_OPTIONS)
    commands = "\n".join(f"    '{it.name}:{zsh_quoted(it.text)}'" for it in COMMANDS.values())
    return f"""#compdef shq
# Completion of shq for zsh: commands, options and files.
_shq() {{
  local -a commands
  commands=(
{commands}
{general}
  )
  if (( CURRENT == 2 )); then
    _describe 'command' commands
    return
  fi
  local command=$words[2]
  shift words
  (( CURRENT-- ))
  case $command in
{chr(10).join(zsh_cases())}
  esac
}}
_shq "$@"
"""
