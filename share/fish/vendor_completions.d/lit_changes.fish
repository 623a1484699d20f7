# Completion of lit_changes for fish. Made by tools/pages.
complete -c lit_changes -s h -l help -d 'print this, where it is the only word'
complete -c lit_changes -l version -d 'print the version, where it is the only word'
