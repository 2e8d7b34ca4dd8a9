# bash completion of taskscope, made of its help by tests/completions.py
_taskscope() {
    local word=${COMP_WORDS[COMP_CWORD]} before=${COMP_WORDS[COMP_CWORD-1]} all=
    COMPREPLY=()
    if [ "$COMP_CWORD" -eq 1 ]; then
        COMPREPLY=($(compgen -W 'run view lint page watch metrics compare demo help --help --version' -- "$word"))
        return
    fi
    case ${COMP_WORDS[1]}:$before in
    view:--self-wake-percent) return ;;
    view:--never-yielded-ns) return ;;
    view:--never-yielded) return ;;
    view:--long-poll) return ;;
    view:--long-wait) return ;;
    view:--by) return ;;
    view:--until) return ;;
    view:--since) return ;;
    view:--last) return ;;
    view:--place) return ;;
    lint:--self-wake-percent) return ;;
    lint:--never-yielded-ns) return ;;
    lint:--never-yielded) return ;;
    lint:--long-poll) return ;;
    lint:--long-wait) return ;;
    lint:--by) return ;;
    lint:--until) return ;;
    lint:--since) return ;;
    lint:--last) return ;;
    page:--self-wake-percent) return ;;
    page:--never-yielded-ns) return ;;
    page:--never-yielded) return ;;
    page:--long-poll) return ;;
    page:--title) return ;;
    page:--until) return ;;
    watch:--self-wake-percent) return ;;
    watch:--never-yielded-ns) return ;;
    watch:--never-yielded) return ;;
    watch:--sort) COMPREPLY=($(compgen -W 'busy sched polls wakes self-wakes held-up' -- "$word")); return ;;
    watch:--rows) return ;;
    watch:--filter) return ;;
    watch:--by) return ;;
    watch:--every) return ;;
    metrics:--self-wake-percent) return ;;
    metrics:--never-yielded-ns) return ;;
    metrics:--never-yielded) return ;;
    metrics:--by) return ;;
    metrics:--every) return ;;
    metrics:--series) return ;;
    metrics:--until) return ;;
    compare:--self-wake-percent) return ;;
    compare:--never-yielded-ns) return ;;
    compare:--never-yielded) return ;;
    compare:--long-poll) return ;;
    compare:--more-than) return ;;
    compare:--at-least) return ;;
    esac
    case ${COMP_WORDS[1]} in
    run) all='--explain --help' ;;
    view) all='--self-wake-percent --never-yielded-ns --never-yielded --long-poll --long-wait --findings --by --until --since --last --times --place --explain --help' ;;
    lint) all='--self-wake-percent --never-yielded-ns --never-yielded --long-poll --long-wait --findings --by --until --since --last --explain --help' ;;
    page) all='--self-wake-percent --never-yielded-ns --never-yielded --long-poll --title --until --explain --help' ;;
    watch) all='--self-wake-percent --never-yielded-ns --never-yielded --sort --rows --filter --resources --by --every --follow --keys --plain --help' ;;
    metrics) all='--self-wake-percent --never-yielded-ns --never-yielded --by --to --every --follow --series --until --help' ;;
    compare) all='--self-wake-percent --never-yielded-ns --never-yielded --long-poll --more-than --at-least --help' ;;
    demo) all='--help' ;;
    help) all='run view lint page watch metrics compare demo help' ;;
    esac
    case $word in
    -*) COMPREPLY=($(compgen -W "$all" -- "$word")) ;;
    *) if [ "${COMP_WORDS[1]}" = help ]; then COMPREPLY=($(compgen -W "$all" -- "$word")); else COMPREPLY=($(compgen -f -- "$word")); fi ;;
    esac
}
complete -o filenames -F _taskscope taskscope
