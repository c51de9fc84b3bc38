# Completions of wat for fish.
function __wat_takes
    set -l words (commandline -opc)
    test (count $words) -gt 1; and contains -- $words[2] $argv
end
function __wat_needs_command
    test (count (commandline -opc)) = 1
end
complete -c wat -f
complete -c wat -n __wat_needs_command -a check -d 'Report the errors of modules'
complete -c wat -n __wat_needs_command -a list -d 'List the contents of modules'
complete -c wat -n __wat_needs_command -a print -d 'Print modules'
complete -c wat -n __wat_needs_command -a fmt -d 'Format files'
complete -c wat -n __wat_needs_command -a help -d 'Print the help'
complete -c wat -n __wat_needs_command -s V -l version -d 'Print the version'
complete -c wat -s h -l help -d 'Print the help'
complete -c wat -n '__wat_takes help' -a 'check list print fmt'
complete -c wat -n '__wat_takes check list print fmt' -k -a '(__fish_complete_suffix .wat .wast)'
complete -c wat -n '__wat_takes check list print fmt' -l stdin-filepath -rF -d 'The name of standard input in reports'
complete -c wat -n '__wat_takes check' -l json -d 'Print each error as a JSON object'
complete -c wat -n '__wat_takes check' -l syntax -d 'Check the syntax only'
complete -c wat -n '__wat_takes check' -l color -xa 'always never auto' -d 'When to use colors'
complete -c wat -n '__wat_takes print' -l line -d 'Print a module on one line'
complete -c wat -n '__wat_takes fmt' -l check -d 'Print the names of inputs that would change'
complete -c wat -n '__wat_takes fmt' -l diff -d 'Print what would change'
