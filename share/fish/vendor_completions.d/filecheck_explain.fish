# Completion of filecheck_explain for fish. Made by tools/pages.
complete -c filecheck_explain -s h -l help -d 'print this, where it is the only word'
complete -c filecheck_explain -l version -d 'print the version, where it is the only word'
