# Completes the words of hvpm in bash.

_hvpm() {
    local current=${COMP_WORDS[COMP_CWORD]} command="" words="" word
    for word in "${COMP_WORDS[@]:1:COMP_CWORD-1}"; do
        [[ $word == -* ]] || { command=$word; break; }
    done
    case $command in
        "") words="run check explain trace report serve draw asm help --help --version" ;;
        run) words="--serial --table --names --help" ;;
        check) words="--prefix --no-rules --json --names --help" ;;
        explain | report) words="--names --help" ;;
        trace) words="--perfetto --names --help" ;;
        serve) words="--json --names --help" ;;
        draw) words="--sequence --to --from --only --names --help" ;;
        asm) words="--help" ;;
        help) words="run check explain trace report serve draw asm help" ;;
    esac
    # What follows these is typed by hand.
    case ${COMP_WORDS[COMP_CWORD-1]} in
        --to | --from | --only) COMPREPLY=(); return ;;
    esac
    mapfile -t COMPREPLY < <(compgen -W "$words" -- "$current")
    case $command in
        run | check | explain | trace | report | draw | asm)
            [[ $current == -* ]] || mapfile -t COMPREPLY < <(compgen -f -- "$current")
            ;;
    esac
}

complete -o filenames -F _hvpm hvpm
