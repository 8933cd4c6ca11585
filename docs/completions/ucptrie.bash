# Completion of ucptrie's arguments in bash: source this file.
_ucptrie() {
    local word=${COMP_WORDS[COMP_CWORD]} before=${COMP_WORDS[COMP_CWORD - 1]} words=
    COMPREPLY=()
    if [ "$COMP_CWORD" = 1 ]; then
        words='build join convert set words list show get explain diff help --help -h --version -V'
        mapfile -t COMPREPLY < <(compgen -W "$words" -- "$word")
        return
    fi
    case $before in
        --as)
            words='icu toml json c bks rust rust-static rows names'
            [ "${COMP_WORDS[1]}" != set ] || words='icu toml json c rust rust-static rows c-frozen rust-frozen'
            [ "${COMP_WORDS[1]}" != words ] || words='icu c rust rust-static rows' ;;
        --type) words='fast small' ;;
        --width) words='8 16 32' ;;
        --format)
            words='rows properties code-points unicode-data unihan'
            [ "${COMP_WORDS[1]}" != set ] || words="$words table toml serialized"
            [ "${COMP_WORDS[1]}" != words ] || words='words icu' ;;
        --values) words='names decimal hexadecimal set' ;;
        --name | --default | --error | --property | --field | --value | --offset) return ;;
        --output | -o | --check | --from | --aliases) mapfile -t COMPREPLY < <(compgen -f -- "$word"); return ;;
        *)
            case ${COMP_WORDS[1]} in
                build)
                    words='--format --property --field --values --aliases --type --width --default'
                    words="$words --error --as --name --output -o --check --help -h" ;;
                join)
                    words='--aliases --type --width --error --as --name --output -o --check --help -h' ;;
                list) words='--help -h' ;;
                convert)
                    words='--property --offset --type --width --error --as --name --output -o --check --help -h' ;;
                set)
                    words='--format --property --field --value --aliases --offset --as --name --output -o'
                    words="$words --check --help -h" ;;
                words) words='--format --as --name --output -o --check --help -h' ;;
                show) words='--property --offset --help -h' ;;
                diff) words='--property --help -h' ;;
                get | explain) words='--property --offset --from --help -h' ;;
                help) words='build join convert set words list show get explain diff help' ;;
            esac ;;
    esac
    mapfile -t COMPREPLY < <(compgen -W "$words" -- "$word")
    case ${COMP_WORDS[1]}$before in
        convert--* | build--* | join--* | set--* | words--*) ;;
        build* | join* | convert* | set* | words* | list* | show* | get* | explain* | diff*) mapfile -t -O "${#COMPREPLY[@]}" COMPREPLY < <(compgen -f -- "$word") ;;
    esac
}
complete -o filenames -F _ucptrie ucptrie
