# Completes the commands and options of stompd in bash: source it, or put it into /usr/share/bash-completion/completions as stompd.
# It asks the program itself, so it knows what that takes. All else is completed as file names.

_stompd() {
    local words=
    if [ "$COMP_CWORD" = 1 ]; then
        words=$("$1" help 2>/dev/null | sed -n '/^Commands:/,/^$/s/^  \([a-z]*\) .*/\1/p')
    elif [ "${COMP_WORDS[COMP_CWORD]:0:1}" = - ]; then
        words=$("$1" help "${COMP_WORDS[1]}" 2>/dev/null | sed -n 's/^ *\(-., \)\?\(--[a-z-]*\).*/\2/p')
    fi
    mapfile -t COMPREPLY < <(compgen -W "$words" -- "${COMP_WORDS[COMP_CWORD]}")
}

complete -o default -F _stompd stompd
