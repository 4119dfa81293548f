# Completes the words of ./heap, ./heap_report, ./heap_picture and tools/example in bash: source tools/completion.bash.

_limzhur_heap() {
    local -a configuration=(0x400000 1024 65536 1024 4095) words=("${COMP_WORDS[@]:1:COMP_CWORD}")
    local word="${words[-1]}" called="${COMP_WORDS[0]##*/}" place offered=''
    [ "${#words[@]}" = 1 ] || [ "${words[0]}" != --proved ] || words=("${words[@]:1}")
    place="${#words[@]}"
    case "$called $place ${words[0]}" in
        'heap 1 '*) offered='run gen --help --version --package' ;;
        'heap 2 --help') offered=lines ;;
        'heap '[2-6]' run') offered="${configuration[place - 2]}" ;;
        'heap '[4-8]' gen') offered="${configuration[place - 4]}" ;;
        'heap_picture 1 '*) offered="map tables time ${configuration[0]} --help --version" ;;
        'heap_picture '[2-6]' map' | 'heap_picture '[2-6]' tables' | 'heap_picture '[2-6]' time') offered="${configuration[place - 2]}" ;;
        heap_*' 1 '*) offered="${configuration[0]} --help --version" ;;
        heap_*' '[2-5]' 0x'* | heap_*' '[2-5]' '[0-9]*) offered="${configuration[place - 1]}" ;;
    esac
    [ "$COMP_CWORD" != 1 ] || offered+=' --proved'
    mapfile -t COMPREPLY < <(compgen -W "$offered" -- "$word")
}

_limzhur_example() {
    mapfile -t COMPREPLY < <(compgen -W "$("${COMP_WORDS[0]}")" -- "${COMP_WORDS[COMP_CWORD]}")
}

complete -F _limzhur_heap heap ./heap heap_report ./heap_report heap_picture ./heap_picture
complete -F _limzhur_example tools/example
