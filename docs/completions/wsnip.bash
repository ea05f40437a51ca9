# Completions of wsnip for bash.
_wsnip() {
    local current=${COMP_WORDS[COMP_CWORD]} before=${COMP_WORDS[COMP_CWORD - 1]}
    case $before in
    --names-from|-o|--output|--map|--source-map|--output-source-map) ;;
    --pattern|--keep|--source-map-url|--remove-section|--keep-section) return ;;
    *)
        if [[ $current == -* ]]; then
            mapfile -t COMPREPLY < <(compgen -W '--validate --engine-limits --pattern --names-from --rust-panicking-code --rust-fmt-code --list --gc --keep -o --output --force --map --source-map --output-source-map --source-map-url --strip --strip-debug --keep-debug --strip-names --strip-producers --remove-section --keep-section -q --quiet -v --verbose -h --help -V --version' -- "$current")
            return
        fi
        ;;
    esac
    mapfile -t COMPREPLY < <(compgen -f -- "$current")
}
complete -o filenames -F _wsnip wsnip
