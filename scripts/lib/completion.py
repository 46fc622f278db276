"""Completion of the program's words by bash and by zsh, made of the program's help."""

# What help calls a value that is a path of a file, of a folder, or a key, whose file stands behind an @.
FILES, FOLDERS, KEYS = {'FILE'}, {'DIR', 'FROM'}, {'VKEY', 'VKEY=URL'}


def bash_values(options):
    """What completes the value of each option: a branch of a `case`, where `$before` is the option."""
    kinds = [('compgen -f -- "$word"', FILES), ('compgen -d -- "$word"', FOLDERS),
             ('compgen -P @ -f -- "${word#@}"', KEYS)]
    lines = []
    for command, values in kinds:
        names = '|'.join(f'--{option.name}' for option in options if option.value in values)
        if names:
            lines.append(f'        {names}) found=$({command}) ;;')
    known = FILES | FOLDERS | KEYS
    other = '|'.join(f'--{option.name}' for option in options if option.value and option.value not in known)
    return lines + ([f'        {other}) found= ;;'] if other else [])


def bash_command(command):
    """What completes the words of a command: a branch of a `case` over its name."""
    words = ' '.join(f'--{option.name}' for option in command.options())
    return '\n'.join([f'    {command.name})', '      case $before in', *bash_values(command.options()),
                      f'        *) found=$(compgen -W "{words}" -- "$word") ;;', '      esac ;;'])


def bash(whole, commands):
    """The completion for bash."""
    names = ' '.join(command.name for command in commands)
    first = ' '.join(f'--{option.name}' for option in whole.options())
    branches = '\n'.join(map(bash_command, commands))
    return f'''# bash completion for tlog
_tlog() {{
  local word=${{COMP_WORDS[COMP_CWORD]}} before=${{COMP_WORDS[COMP_CWORD-1]}} found= IFS=$' \\t\\n'
  if [ "$COMP_CWORD" -eq 1 ]; then
    COMPREPLY=($(compgen -W "{names} help {first}" -- "$word"))
    return
  fi
  case ${{COMP_WORDS[1]}} in
    help) [ "$COMP_CWORD" -gt 2 ] || found=$(compgen -W "{names}" -- "$word") ;;
{branches}
  esac
  IFS=$'\\n'
  COMPREPLY=($found)
}}
complete -o filenames -F _tlog tlog
'''


def quoted(text):
    """A text between single quotes, as a description of zsh's `_arguments`."""
    for mark in '\\[]:':
        text = text.replace(mark, f'\\{mark}')
    return text.replace("'", "'\\''")


def zsh_option(option):
    """An option as `_arguments` takes it; each may be given again, since some are."""
    action = '_files -/' if option.value in FOLDERS else '_files' if option.value in FILES | KEYS else ' '
    value = f':{quoted(option.value)}:{action}' if option.value else ''
    return f"        '*--{option.name}[{quoted(option.help or '')}]{value}'"


def zsh_command(command):
    options = ' \\\n'.join(map(zsh_option, command.options()))
    return f'    {command.name})\n      _arguments -S \\\n{options} ;;'


def zsh(whole, commands):
    """The completion for zsh."""
    listed = '\n'.join(f"    '{command.name}:{quoted(command.summary)}'" for command in commands)
    first = ' '.join(f"'--{option.name}[{quoted(option.help or '')}]'" for option in whole.options())
    branches = '\n'.join(map(zsh_command, commands))
    return f'''#compdef tlog
_tlog() {{
  local -a commands
  commands=(
{listed}
    'help:Prints help of a command'
  )
  if (( CURRENT == 2 )); then
    _describe command commands
    _arguments {first}
    return
  fi
  local name=$words[2]
  shift words
  (( CURRENT-- ))
  case $name in
    help) (( CURRENT > 2 )) || _describe command commands ;;
{branches}
  esac
}}
_tlog "$@"
'''
