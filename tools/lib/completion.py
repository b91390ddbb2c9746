"""The completion of all commands in bash: of words, options, and files where a command takes one."""
import re

import man_page

# What a place of a command takes: a file, or nothing that could be completed.
FILE, NOTHING = "/", ""
HEAD = """# Completion of xg_solve and its tools in bash. Made by tools/manual; change what it is made from.

# Sets what a command takes: its options, for options with a value what that is, and what stands at each place. Such a
# thing is words, / for a file, or nothing that could be completed.
_xg_solve_takes() {
    options='' places=() values=()
    case $1 in
"""
TAIL = """    esac
}

_xg_solve() {
    local name=${COMP_WORDS[0]##*/} word=${COMP_WORDS[COMP_CWORD]} first=1 place=0 at taken kind options
    local -a places
    local -A values
    COMPREPLY=()
    _xg_solve_takes "$name"
    if [ "$options" = commands ]; then
        if ((COMP_CWORD == 1)); then
            mapfile -t COMPREPLY < <(compgen -W "${places[0]}" -- "$word")
            return
        fi
        _xg_solve_takes "$name ${COMP_WORDS[1]}"
        first=2
    fi
    # Bash parts a word at `=`.
    if [ "$word" = = ]; then
        word='' taken=${COMP_WORDS[COMP_CWORD-1]}
    elif [ "${COMP_WORDS[COMP_CWORD-1]}" = = ]; then
        taken=${COMP_WORDS[COMP_CWORD-2]}
    else
        taken=${COMP_WORDS[COMP_CWORD-1]}
    fi
    if [ -n "${values[$taken]+set}" ]; then
        kind=${values[$taken]}
    elif [[ $word = -* ]]; then
        kind=$options
    else
        for ((at = first; at < COMP_CWORD; at++)); do
            if [ -n "${values[${COMP_WORDS[at]}]+set}" ]; then
                ((at += 1))
                [ "${COMP_WORDS[at]}" != = ] || ((at += 1))
            elif [[ ${COMP_WORDS[at]} != -* ]]; then
                ((place += 1))
            fi
        done
        ((place < ${#places[@]} || ${#places[@]} == 0)) || place=$((${#places[@]} - 1))
        kind=${places[place]-}
    fi
    if [ "$kind" = / ]; then
        compopt -o filenames 2>/dev/null
        mapfile -t COMPREPLY < <(compgen -f -- "$word")
    elif [ -n "$kind" ]; then
        mapfile -t COMPREPLY < <(compgen -W "$kind" -- "$word")
    fi
}

complete -F _xg_solve"""


def kind_of(name, meaning=""):
    """What a place takes by the name of what stands there. A letter stands for a number."""
    choices = re.fullmatch(r"\{(.*)\}", name) or re.fullmatch(r"(\w+(?:, \w+)+)", meaning)
    if choices:
        return choices[1].replace(",", " ").replace("  ", " ")
    return NOTHING if len(name) == 1 else FILE


def quoted(text):
    return "'" + text.replace("'", r"'\''") + "'"


def case(name, options, values, places):
    lines = [f"        options={quoted(' '.join(options))}"] if options else []
    lines += [f"        values=({' '.join(f'[{it}]={quoted(kind)}' for it, kind in values.items())})"] if values else []
    lines += [f"        places=({' '.join(map(quoted, places))})"] if places else []
    return [f"    {quoted(name)})", *lines, "        ;;"]


def options_of(page):
    """The options of a program by its page's table of them, and for a command those that it doesn't take."""
    options = re.findall(r"^\| `(--[\w-]+)` \|", page, re.M)
    return options, set(re.findall(r"but `(\w+)` not `(--[\w-]+)`", page))


def case_without_commands(name, page):
    """The case of a program that has no commands: an option has a value where its page's table names one."""
    options = re.findall(r"^\| `(--[\w-]+)(?: (\w+))?` \|", page, re.M)
    places = [kind_of(it) for words, _ in man_page.words_of(page) for it in words.split()]
    return case(name, [it for it, _ in options], {it: kind_of(value) for it, value in options if value}, places)


def cases_of_program(name, page):
    options, without = options_of(page)
    words = man_page.words_of(page)
    if all(it.isupper() for it, _ in words):
        return case_without_commands(name, page)
    lines = case(name, ["commands"], {}, [" ".join(it.split()[0] for it, _ in words)])
    for told, rest in words:
        command, *places = told.split()
        own = [it for it in options if "option" in rest and (command, it) not in without]
        kinds = [kind_of(it.rstrip(".")) for it in places]
        lines += case(f"{name} {command}", own, {it: NOTHING for it in own}, kinds)
    return lines


def case_of_tool(name, told):
    options, values = [], {}
    for words, _ in told.sections.get("options", []):
        for form in words.split(", "):
            option, _, value = form.partition(" ")
            options.append(option)
            if value:
                values[option] = kind_of(value)
    places = [kind_of(it, meaning) for it, meaning in told.sections.get("positional arguments", [])]
    return case(name, options, values, places)


def of(programs, tools):
    """The text of the completion, of programs with their pages and of tools with their help."""
    lines = [it for name, page in programs.items() for it in cases_of_program(name, page)]
    lines += [it for name, told in tools.items() for it in case_of_tool(name, told)]
    return HEAD + "\n".join(lines) + "\n" + TAIL + "".join(f" \\\n    {it}" for it in [*programs, *tools]) + "\n"
