#compdef tgap
# Completes the words of tgap: its commands and tools, and files.
_tgap() {
    local -a commands
    commands=(
        'check:tell whether a map is sound' 'slice:give the map after some steps' 'packet:give what leads to a finer slice'
        'replay:undo a packet on a slice' 'borders:tell which borders are left' 'grid:count a generated map' 'serve:answer HTTP'
        'keep:answer HTTP, and store edits in a journal'
        'import:make a map of a file of areas' 'where:tell where a refusal is' 'export:write a slice for other tools'
        'steps:list the steps of a map' 'loss:measure what moves' 'publish:write a map for any web server'
        'journal:tell and join the edits of a journal'
        'help:tell the commands'
    )
    if (( CURRENT == 2 )); then
        _describe command commands
    elif [[ $words[2] == help ]]; then
        _describe command commands
    else
        _files
    fi
}
_tgap "$@"
