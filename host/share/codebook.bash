# bash completion for codebook; `codebook completion bash` prints it

_codebook() {
    local word=${COMP_WORDS[COMP_CWORD]} command=${COMP_WORDS[1]} choices=
    COMPREPLY=()
    if [ "$COMP_CWORD" -eq 1 ]; then
        choices='build slim import check verify digest diff list stats picture page row byte run span count find places code match text to-columns from-columns guide compare sort licence sizes help version manual completion --help --version'
    else
        case $command in
        guide) command="$command ${COMP_WORDS[2]}"; [ "$COMP_CWORD" -eq 2 ] && choices='make check' ;;
        licence) command="$command ${COMP_WORDS[2]}"; [ "$COMP_CWORD" -eq 2 ] && choices='open left renew' ;;
        completion) choices='bash zsh' ;;
        help) choices='build slim import check verify digest diff list stats picture page row byte run span count find places code match text to-columns from-columns guide compare sort licence sizes help version manual completion' ;;
        esac
        case $word in -*) case $command in
        'build') choices='-o --output -f --force --keep-time --small --best --leaf --arity --levels --count --columns --allow-larger --maker --edition --first --last -j --jobs --json -q --quiet -h --help' ;;
        'slim') choices='-o --output -f --force --keep-time --json -q --quiet -h --help' ;;
        'import') choices='-o --output -f --force --keep-time --code --cuts --separator --lenient --json -q --quiet -h --help' ;;
        'check') choices='--sha256 --text-sha256 --sums -c --list --json -q --quiet -h --help' ;;
        'verify') choices='--columns --json -q --quiet -h --help' ;;
        'digest') choices='--json --unchecked -q --quiet -h --help' ;;
        'diff') choices='--json --any-day --today -q --quiet -h --help' ;;
        'list') choices='--json -q --quiet -h --help' ;;
        'stats') choices='--json -q --quiet -h --help' ;;
        'picture') choices='-o --output -f --force --keep-time --json -q --quiet -h --help' ;;
        'page') choices='-o --output -f --force --module --json -q --quiet -h --help' ;;
        'row') choices='--guide --columns --json --unchecked --any-day --today -q --quiet -h --help' ;;
        'byte') choices='--json --unchecked --any-day --today -q --quiet -h --help' ;;
        'run') choices='--json --unchecked --any-day --today -q --quiet -h --help' ;;
        'span') choices='--json --unchecked --any-day --today -q --quiet -h --help' ;;
        'count') choices='--json --unchecked --any-day --today -q --quiet -h --help' ;;
        'find') choices='--guide --json --unchecked --any-day --today -q --quiet -h --help' ;;
        'places') choices='--json --unchecked --any-day --today -q --quiet -h --help' ;;
        'code') choices='--prefix --guide --json --unchecked --any-day --today -q --quiet -h --help' ;;
        'match') choices='--from --after --json --unchecked --any-day --today -q --quiet -h --help' ;;
        'text') choices='--json --unchecked --any-day --today -q --quiet -h --help' ;;
        'to-columns') choices='-o --output -f --force --keep-time --json -q --quiet -h --help' ;;
        'from-columns') choices='-o --output -f --force --keep-time --json -q --quiet -h --help' ;;
        'guide make') choices='-o --output -f --force --keep-time --json -q --quiet -h --help' ;;
        'guide check') choices='--json -q --quiet -h --help' ;;
        'compare') choices='--json --unchecked -q --quiet -h --help' ;;
        'sort') choices='--json -q --quiet -h --help' ;;
        'licence open') choices='--json -q --quiet -h --help' ;;
        'licence left') choices='--json -q --quiet -h --help' ;;
        'licence renew') choices='--json -q --quiet -h --help' ;;
        'sizes') choices='--leaf --arity --levels --count --json -q --quiet -h --help' ;;
        'help') choices='--json -q --quiet -h --help' ;;
        'version') choices='--json -q --quiet -h --help' ;;
        'manual') choices='--json -q --quiet -h --help' ;;
        'completion') choices='--json -q --quiet -h --help' ;;
        esac ;; esac
    fi
    if [ -n "$choices" ]; then COMPREPLY=($(compgen -W "$choices" -- "$word")); fi
}
complete -o default -F _codebook codebook
