#!/usr/bin/env python3
"""Makes the completions of ldv for a shell, from the synopsis of the manual page.

    tools/completions.py bash          writes the completions for bash, and so for zsh and fish
    tools/completions.py --states      the words that may follow each beginning of a command

`release.py` puts them where the shells look for them. Each line of the synopsis is a command: words and
options as they are, arguments in capitals, and at its end what may be left out. A shell is offered the words
that may come next; arguments it isn't offered, since they are names in a package and numbers. After `<` and
`>` a shell completes names of files by itself.
"""
from __future__ import annotations

import os
import re
import sys
from typing import Dict, List, NamedTuple, Sequence, Set, Tuple

HERE = os.path.dirname(os.path.abspath(__file__))
MANUAL = os.path.join(os.path.dirname(HERE), "docs", "ldv.1")
# In place of an argument, which may be any word.
ANY = "*"
Form = List[Set[str]]


class Usage(NamedTuple):
    """A line of the synopsis: what has to stand there, and the groups of words that may follow, each of which
    may be left out. Each place has the words that may stand there."""

    words: Form
    options: List[Form]


# ---- the synopsis

def synopsis(text: str) -> List[str]:
    """The macros of each line of the synopsis, joined to one line."""
    part = re.search(r"(?ms)^\.Sh SYNOPSIS\n(.*?)^\.Sh ", text)
    if part is None:
        raise SystemExit("completions.py: the manual page has no SYNOPSIS")
    return [" ".join(line[1:] for line in each.splitlines() if line) for each in
            re.split(r"(?m)^\.Nm\n", part[1])[1:]]


def usage_of(line: str) -> Usage:
    """Of a line such as `Cm replay Fl -seed Ar S Op Fl -steps Ar N`."""
    groups: List[Form] = [[]]
    kind, is_other = "", False
    for word in line.split():
        if word in ("Cm", "Fl", "Ar"):
            kind = word
        elif word == "Op":
            groups.append([])
        elif word == "|":
            is_other = True
        else:
            shown = ANY if kind == "Ar" else "-" + word if kind == "Fl" else word
            if is_other:
                groups[-1][-1].add(shown)
            else:
                groups[-1].append({shown})
            is_other = False
    return Usage(groups[0], groups[1:])


def forms_of(usage: Usage) -> List[Form]:
    """What stands there with each choice of the groups that may be left out."""
    forms = [usage.words]
    for group in usage.options:
        forms += [form + group for form in forms]
    return forms


def states_of(text: str) -> Dict[Tuple[str, ...], List[str]]:
    """What may follow each beginning of a command, where there is something."""
    found: Dict[Tuple[str, ...], Set[str]] = {}
    for usage in map(usage_of, synopsis(text)):
        for form in forms_of(usage):
            begins: List[Tuple[str, ...]] = [()]
            for place in form:
                for begin in begins:
                    found.setdefault(begin, set()).update(place)
                begins = [(*begin, word) for begin in begins for word in sorted(place)]
    return {begin: sorted(found[begin]) for begin in sorted(found)}


# ---- shells

def key_of(begin: Sequence[str]) -> str:
    return " ".join(begin)


def case_lines(states: Dict[Tuple[str, ...], List[str]], indent: str) -> str:
    """The branches of a `case` over the words before, which name what may follow. `*` stands for any word."""
    return "\n".join(f"{indent}'{key_of(begin)}') next='{' '.join(words)}' ;;"
                     for begin, words in states.items())


# The words before the cursor become those of the table: one that may stand there as it is, another one `*`.
BASH = """# Completions of ldv for bash, made from the synopsis of its manual page.
_ldv_next() {{
    case $1 in
{cases}
        *) next= ;;
    esac
}}

_ldv() {{
    local begin= word next i
    COMPREPLY=()
    case ${{COMP_WORDS[COMP_CWORD-1]}} in
        '<' | '>' | '>>' | '2>') compopt -o default 2>/dev/null; return ;;
    esac
    for ((i = 1; i < COMP_CWORD; i++)); do
        word=${{COMP_WORDS[i]}}
        case $word in
            '<' | '>' | '>>' | '2>') ((i++)); continue ;;
        esac
        _ldv_next "$begin"
        case " $next " in
            *" $word "*) ;;
            *) word='*' ;;
        esac
        begin=${{begin:+$begin }}$word
    done
    _ldv_next "$begin"
    set -f
    COMPREPLY=($(compgen -W "${{next//\\*/}}" -- "${{COMP_WORDS[COMP_CWORD]}}"))
    set +f
}}
complete -F _ldv ldv
"""
ZSH = """#compdef ldv
# Completions of ldv for zsh, made from the synopsis of its manual page.
_ldv_next() {{
    case $1 in
{cases}
        *) next= ;;
    esac
}}

_ldv() {{
    local begin= word next
    for word in "${{(@)words[2,CURRENT-1]}}"; do
        _ldv_next "$begin"
        [[ " $next " == *" $word "* && $word != '*' ]] || word='*'
        begin=${{begin:+$begin }}$word
    done
    _ldv_next "$begin"
    compadd -- ${{(s: :)next//\\*/}}
}}

_ldv "$@"
"""
FISH = """# Completions of ldv for fish, made from the synopsis of its manual page.
function __ldv_next
    switch $argv[1]
{cases}
    end
end

function __ldv_words
    set -l begin
    for word in (commandline -opc)[2..-1]
        contains -- $word (__ldv_next "$begin"); and test $word != '*'; or set word '*'
        set -a begin $word
    end
    string match -v '\\*' -- (__ldv_next "$begin")
end

complete -c ldv -f -a '(__ldv_words)'
"""


def fish_cases(states: Dict[Tuple[str, ...], List[str]]) -> str:
    """In fish `*` of a case is a pattern where it isn't escaped."""
    return "\n".join("        case '{}'\n            printf '%s\\n' {}".format(
        key_of(begin).replace("*", "\\*"), " ".join(f"'{word}'" for word in words))
        for begin, words in states.items())


def completions(shell: str, text: str) -> str:
    """The completions for a shell, from the text of the manual page."""
    states = states_of(text)
    if shell == "fish":
        return FISH.format(cases=fish_cases(states))
    return {"bash": BASH, "zsh": ZSH}[shell].format(cases=case_lines(states, "        "))


def manual() -> str:
    with open(MANUAL, encoding="utf-8") as file:
        return file.read()


def main(words: Sequence[str]) -> int:
    if list(words) == ["--states"]:
        for begin, following in states_of(manual()).items():
            print(f"{key_of(begin) or '(nothing)'}: {' '.join(following)}")
    elif len(words) == 1 and words[0] in ("bash", "zsh", "fish"):
        sys.stdout.write(completions(words[0], manual()))
    else:
        sys.stdout.write(__doc__ or "")
        return 0 if words and words[0] in ("-h", "--help") else 2
    return 0


if __name__ == "__main__":
    sys.exit(main(sys.argv[1:]))
