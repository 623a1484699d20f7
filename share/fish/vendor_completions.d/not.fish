# Completion of not for fish. Made by tools/pages.
complete -c not -n __fish_is_first_token -a '(__fish_complete_command)'
complete -c not -l crash -d 'succeed only where a signal ended the command'
complete -c not -s h -l help -d 'print this, where it is the only word'
complete -c not -l version -d 'print the version, where it is the only word'
