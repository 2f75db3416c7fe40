# Completes the words of tgap: its commands and tools, their options, and files.
_tgap() {
    local word=${COMP_WORDS[COMP_CWORD]} options=""
    if [ "$COMP_CWORD" -eq 1 ]; then
        mapfile -t COMPREPLY < <(compgen -W "borders check slice packet replay grid serve keep import where export steps loss publish journal help --help --version" -- "$word")
        return
    fi
    case ${COMP_WORDS[1]} in
        help) options="borders check slice packet replay grid serve keep import where export steps loss publish journal" ;;
        slice) options="--faces --scale --help" ;;
        import) options="--layer --encoding --s_srs --t_srs --quantize --keep --cell --property --id --name --made --keep-fields --drop-fields --title --attribution
            --sea --slivers --first-wins --geojson --new-rules --help" ;;
        where) options="--geojson --name --all --help" ;;
        export) options="--to --step --faces --scale --paper --meta --fields --sum --mean --least --greatest --crs --without --width --help" ;;
        steps) options="--every --least --scale --faces --paper --alone --meta --help" ;;
        loss) options="--steps --faces --scale --paper --ratio --by-face --help" ;;
        publish) options="--from --check --faces --meta --help" ;;
        journal) options="--versions --help" ;;
        *) options="--help" ;;
    esac
    [ "$COMP_CWORD,${COMP_WORDS[1]}" != 2,journal ] || options="list check join --help"
    case $word,${COMP_WORDS[1]},$COMP_CWORD in
        -*,*,* | *,help,* | *,journal,2) mapfile -t COMPREPLY < <(compgen -W "$options" -- "$word") ;;
        *) mapfile -t COMPREPLY < <(compgen -f -- "$word") ;;
    esac
}
complete -o filenames -F _tgap tgap
