"""The completions of the words of `pdl` for bash and zsh, made of the commands of README.md."""

from command_table import listed

# What a word of a command is: how its files end, or nothing where it is a number.
ENDINGS = {"SOURCE": "pdl", "IMAGE": "img", "NETLIST": "v", "TABLE": "toml", "TEXT": "asm", "CYCLES": "", "THREADS": "", "N": ""}
HEAD = "# Completes the words of pdl for {}. Written by tools/installed_files.py from README.md."

BASH = """{head}
_pdl() {{
    local IFS=$' \\t\\n' word=${{COMP_WORDS[COMP_CWORD]}} before=${{COMP_WORDS[COMP_CWORD - 1]}} endings='' delays='' place=0 k
    COMPREPLY=()
    if [ "$COMP_CWORD" -eq 1 ]; then
        COMPREPLY=($(compgen -W "{names}" -- "$word"))
        return
    fi
    case ${{COMP_WORDS[1]}} in
{cases}
        *) return ;;
    esac
    # An option and its value may stand anywhere, and bash takes `=` for a word.
    for ((k = 2; k < COMP_CWORD; k++)); do
        case ${{COMP_WORDS[k]}} in
            --delays) delays='' k=$((k + 1)); [ "${{COMP_WORDS[k]}}" != = ] || k=$((k + 1)) ;;
            *) place=$((place + 1)) ;;
        esac
    done
    endings=($endings)
    if [ "$before" = --delays ] || [ "$before${{COMP_WORDS[COMP_CWORD - 2]}}" = =--delays ]; then
        _pdl_files delays "${{word#=}}"
    elif [ -n "$delays" ] && [[ $word == -* ]]; then
        COMPREPLY=(--delays)
    elif [ "${{endings[place]:-number}}" != number ]; then
        _pdl_files "${{endings[place]}}" "$word"
    fi
}}

# The files with an ending and the folders; all files where there is none of these.
_pdl_files() {{
    local IFS=$'\\n'
    COMPREPLY=($(compgen -f -X "!*.$1" -- "$2"; compgen -d -- "$2"))
    [ ${{#COMPREPLY[@]}} -gt 0 ] || COMPREPLY=($(compgen -f -- "$2"))
}}

complete -o filenames -F _pdl pdl
"""

ZSH = """#compdef pdl
{head}
local context state state_descr line
typeset -A opt_args
_arguments -C '1:command:->command' '*::word:->word'
case $state in
    command)
        local -a commands
        commands=(
{commands}
        )
        _describe -t commands command commands
        ;;
    word)
        case $words[1] in
{cases}
        esac
        ;;
esac
"""


def unknown():
    """The words of commands of which ENDINGS says nothing."""
    return sorted({word for it in listed() for word in it.words} - set(ENDINGS))


def bash():
    """The completions for bash."""
    cases = []
    for it in listed():
        endings = " ".join(ENDINGS[word] or "number" for word in it.words)
        cases.append(f'        {it.name}) endings="{endings}"{" delays=yes" if it.has_delays else ""} ;;')
    return BASH.format(head=HEAD.format("bash"), names=" ".join(it.name for it in listed()), cases="\n".join(cases))


def quoted(text):
    """A text between single quotes."""
    return "'" + text.replace("'", "'\\''") + "'"


def asked(place, word):
    """What zsh asks for in a place."""
    files = f'_files -g "*.{ENDINGS[word]}(-.)"' if ENDINGS[word] else " "
    return quoted(f"{place}:{word.lower()}:{files}")


def zsh():
    """The completions for zsh."""
    commands = [f"            {quoted(f'{it.name}:{it.brief()}')}" for it in listed()]
    cases = []
    for it in listed():
        delays = ["""'--delays=[a delay file]:file:_files -g "*.delays(-.)"'"""] if it.has_delays else []
        words = [asked(place, word) for place, word in enumerate(it.words, 1)]
        cases.append(f"            {it.name}) _arguments {' '.join(delays + words)} ;;")
    return ZSH.format(head=HEAD.format("zsh"), commands="\n".join(commands), cases="\n".join(cases))
