# Completion in bash for admissions and its tools: subcommands, verbs and options as --help prints them, then names of files.
# shellcheck shell=bash disable=SC2207

_admissions() {
    local word=${COMP_WORDS[COMP_CWORD]} command=${COMP_WORDS[0]} help subcommand=()
    COMPREPLY=()
    case $word in
        -*)
            if [[ $command == admissions || $command == admissions-admin ]] && [[ $COMP_CWORD -gt 1 ]]; then subcommand=("${COMP_WORDS[1]}"); fi
            help=$("$command" "${subcommand[@]}" --help 2>&1)
            COMPREPLY=($(compgen -W "$(grep -o -E -- '--[a-z][a-z-]*' <<< "$help" | sort -u)" -- "$word"))
            ;;
        *)
            if [[ $command == admissions && $COMP_CWORD -eq 1 ]]; then
                help=$("$command" --help 2>&1)
                COMPREPLY=($(compgen -W "$(sed -n '/^Commands:/,/^$/s/^  *\([a-z-]*\)  .*/\1/p' <<< "$help")" -- "$word"))
            elif [[ $command == admissions-admin && $COMP_CWORD -eq 1 ]]; then
                help=$("$command" --help 2>&1)
                COMPREPLY=($(compgen -W "$(sed -n '/^verbs:/,$s/^    \([a-z-]*\)\( .*\)*$/\1/p' <<< "$help")" -- "$word"))
            elif [[ $command == admissions && $COMP_CWORD -eq 3 && ${COMP_WORDS[1]} == init ]]; then
                COMPREPLY=($(compgen -W 'primary secondary' -- "$word"))
            else
                COMPREPLY=($(compgen -f -- "$word"))
            fi
            ;;
    esac
}
complete -o filenames -F _admissions "${BASH_SOURCE[0]##*/}"
