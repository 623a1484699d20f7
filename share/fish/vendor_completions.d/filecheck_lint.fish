# Completion of filecheck_lint for fish. Made by tools/pages.
complete -c filecheck_lint -s h -l help -d 'print this, where it is the only word'
complete -c filecheck_lint -l version -d 'print the version, where it is the only word'
