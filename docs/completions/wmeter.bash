# Completions of wmeter for bash.
_wmeter() {
    local current=${COMP_WORDS[COMP_CWORD]} before=${COMP_WORDS[COMP_CWORD - 1]}
    case $before in
    --costs|-o|--output|--map|--source-map|--output-source-map) ;;
    --import|--global|--source-map-url|--remove-section|--keep-section) return ;;
    *)
        if [[ $current == -* ]]; then
            mapfile -t COMPREPLY < <(compgen -W '--validate --engine-limits --costs --import --global -o --output --force --map --source-map --output-source-map --source-map-url --strip --strip-debug --keep-debug --strip-names --strip-producers --remove-section --keep-section -q --quiet -v --verbose -h --help -V --version' -- "$current")
            return
        fi
        ;;
    esac
    mapfile -t COMPREPLY < <(compgen -f -- "$current")
}
complete -o filenames -F _wmeter wmeter
