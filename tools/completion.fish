# Completes the words of ./heap, ./heap_report, ./heap_picture, ./library and tools/example in fish: source tools/completion.fish

function __limzhur_heap
    set -l configuration 0x400000 1024 65536 1024 4095
    set -l given (commandline -opc)
    set -l called (basename $given[1])
    set -e given[1]
    set -l first true
    if test (count $given) -gt 0 -a "$given[1]" = --proved
        set -e given[1]
        set first false
    end
    set -l place (count $given)
    if test $place = 0
        switch $called
            case heap
                printf '%s\n' run gen --help --version --package
            case heap_picture
                printf '%s\n' map tables time $configuration[1] --help --version
            case '*'
                printf '%s\n' $configuration[1] --help --version
        end
        test $first = true; and echo --proved
        return
    end
    switch "$called $given[1]"
        case 'heap --help'
            echo lines
        case 'heap run' 'heap_picture map' 'heap_picture tables' 'heap_picture time'
            test $place -le 5; and echo $configuration[$place]
        case 'heap gen'
            test $place -ge 3 -a $place -le 7; and echo $configuration[(math $place - 2)]
        case 'heap_* 0x*'
            test $place -le 4; and echo $configuration[(math $place + 1)]
    end
end

for name in heap heap_report heap_picture
    complete -c $name -f -a '(__limzhur_heap)'
end
complete -c library -f -a '--kernel --guest --preload --package --install --help'
complete -c example -f -a '(eval (commandline -opc)[1])'
