# Completions of wat for bash.
_wat() {
    local word=${COMP_WORDS[COMP_CWORD]} command=${COMP_WORDS[1]} options=""
    local ended=" ${COMP_WORDS[*]:1:COMP_CWORD-1} " commands="check list print fmt help"
    case $command in
    check) options="--json --syntax --color --stdin-filepath --help" ;;
    list) options="--stdin-filepath --help" ;;
    print) options="--line --stdin-filepath --help" ;;
    fmt) options="--check --diff --stdin-filepath --help" ;;
    esac
    if [ "$COMP_CWORD" = 1 ]; then
        COMPREPLY=($(compgen -W "$commands --help --version" -- "$word"))
    elif [ "$command" = help ]; then
        COMPREPLY=($(compgen -W "$commands" -- "$word"))
    elif [[ $command = check && $ended != *" -- "* && $ended =~ " --color "("= ")?$ ]]; then
        COMPREPLY=($(compgen -W "always never auto" -- "${word#=}"))
    elif [[ $word == -* && $ended != *" -- "* ]]; then
        COMPREPLY=($(compgen -W "$options" -- "$word"))
    else
        local IFS=$'\n'
        COMPREPLY=($(compgen -d -S / -- "$word") $(compgen -f -X '!*.wat' -- "$word") $(compgen -f -X '!*.wast' -- "$word"))
        compopt -o filenames -o nospace
    fi
}
complete -F _wat wat
