# Completes the words of ./heap, ./heap_report, ./heap_picture, ./library, ./test and tools/example in zsh, after compinit:
# source tools/completion.zsh

_limzhur_heap() {
    local -a configuration=(0x400000 1024 65536 1024 4095) given=("${(@)words[2,CURRENT]}") offered=()
    local called="${words[1]:t}" place
    [[ $#given -gt 1 && "$given[1]" == --proved ]] && shift given
    place=$#given
    case "$called $place $given[1]" in
        'heap 1 '*) offered=(run gen --help --version --package) ;;
        'heap 2 --help') offered=(lines) ;;
        'heap '[2-6]' run') offered=($configuration[place-1]) ;;
        'heap '[4-8]' gen') offered=($configuration[place-3]) ;;
        'heap_picture 1 '*) offered=(map tables time $configuration[1] --help --version) ;;
        'heap_picture '[2-6]' '(map|tables|time)) offered=($configuration[place-1]) ;;
        heap_*' 1 '*) offered=($configuration[1] --help --version) ;;
        heap_*' '[2-5]' '*) offered=($configuration[place]) ;;
    esac
    (( CURRENT == 2 )) && offered+=(--proved)
    compadd -a offered
}

_limzhur_example() {
    compadd -- $("${words[1]}")
}

compdef _limzhur_heap heap ./heap heap_report ./heap_report heap_picture ./heap_picture
compdef _limzhur_example tools/example
compdef 'compadd -- --kernel --guest --preload --package --install --help' library ./library
