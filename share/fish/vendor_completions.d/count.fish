# Completion of count for fish. Made by tools/pages.
complete -c count -f
complete -c count -s h -l help -d 'print this, where it is the only word'
complete -c count -l version -d 'print the version, where it is the only word'
