# Made by completions/generate.
# shellcheck shell=bash
_oncrpc() {
    local word=${COMP_WORDS[COMP_CWORD]} before=${COMP_WORDS[COMP_CWORD - 1]}
    [[ $word != = ]] || word=
    [[ $before != = ]] || before=${COMP_WORDS[COMP_CWORD - 2]}
    COMPREPLY=()
    if ((COMP_CWORD == 1)); then
        mapfile -t COMPREPLY < <(compgen -W "check show encode types records messages capture info call ping serve help --help --version" -- "$word")
        return
    fi
    case ${COMP_WORDS[1]} in
    help) mapfile -t COMPREPLY < <(compgen -W "check show encode types records messages capture info call ping serve" -- "$word") ;;
    check)
        case $before in
        --name) mapfile -t COMPREPLY < <(compgen -W "int unsigned hyper unsigned-hyper bool opaque string" -- "$word") ;;
        --types) compopt -o filenames && mapfile -t COMPREPLY < <(compgen -f -- "$word") ;;
        --dialect) mapfile -t COMPREPLY < <(compgen -W "rpcgen" -- "$word") ;;
        --define) : ;;
        --depth) : ;;
        --bytes) : ;;
        *) mapfile -t COMPREPLY < <(compgen -W "--name --types --dialect --define --hex --depth --bytes --help" -- "$word") ;;
        esac
        ;;
    show)
        case $before in
        --name) mapfile -t COMPREPLY < <(compgen -W "int unsigned hyper unsigned-hyper bool opaque string" -- "$word") ;;
        --types) compopt -o filenames && mapfile -t COMPREPLY < <(compgen -f -- "$word") ;;
        --dialect) mapfile -t COMPREPLY < <(compgen -W "rpcgen" -- "$word") ;;
        --define) : ;;
        --depth) : ;;
        --bytes) : ;;
        *) mapfile -t COMPREPLY < <(compgen -W "--name --types --dialect --define --hex --depth --bytes --json --indent --help" -- "$word") ;;
        esac
        ;;
    encode)
        case $before in
        --name) mapfile -t COMPREPLY < <(compgen -W "int unsigned hyper unsigned-hyper bool opaque string" -- "$word") ;;
        --types) compopt -o filenames && mapfile -t COMPREPLY < <(compgen -f -- "$word") ;;
        --dialect) mapfile -t COMPREPLY < <(compgen -W "rpcgen" -- "$word") ;;
        --define) : ;;
        --depth) : ;;
        --bytes) : ;;
        *) mapfile -t COMPREPLY < <(compgen -W "--name --types --dialect --define --hex --depth --bytes --help" -- "$word") ;;
        esac
        ;;
    types)
        case $before in
        --types) compopt -o filenames && mapfile -t COMPREPLY < <(compgen -f -- "$word") ;;
        --dialect) mapfile -t COMPREPLY < <(compgen -W "rpcgen" -- "$word") ;;
        --define) : ;;
        *) mapfile -t COMPREPLY < <(compgen -W "--types --dialect --define --json --help" -- "$word") ;;
        esac
        ;;
    records)
        case $before in
        --limit) : ;;
        *) mapfile -t COMPREPLY < <(compgen -W "--limit --hex --help" -- "$word") ;;
        esac
        ;;
    messages)
        case $before in
        --types) compopt -o filenames && mapfile -t COMPREPLY < <(compgen -f -- "$word") ;;
        --dialect) mapfile -t COMPREPLY < <(compgen -W "rpcgen" -- "$word") ;;
        --define) : ;;
        --replies) compopt -o filenames && mapfile -t COMPREPLY < <(compgen -f -- "$word") ;;
        *) mapfile -t COMPREPLY < <(compgen -W "--types --dialect --define --replies --json --brief --help" -- "$word") ;;
        esac
        ;;
    capture)
        case $before in
        --types) compopt -o filenames && mapfile -t COMPREPLY < <(compgen -f -- "$word") ;;
        --dialect) mapfile -t COMPREPLY < <(compgen -W "rpcgen" -- "$word") ;;
        --define) : ;;
        --port) : ;;
        *) mapfile -t COMPREPLY < <(compgen -W "--types --dialect --define --port --json --stats --brief --help" -- "$word") ;;
        esac
        ((COMP_CWORD != 2)) || [[ $word == -* ]] || { compopt -o filenames && mapfile -t COMPREPLY < <(compgen -f -- "$word"); }
        ;;
    info)
        case $before in
        --vers) mapfile -t COMPREPLY < <(compgen -W "2 3 4" -- "$word") ;;
        --timeout) : ;;
        *) mapfile -t COMPREPLY < <(compgen -W "--vers --udp --timeout --help" -- "$word") ;;
        esac
        ((COMP_CWORD != 2)) || [[ $word == -* ]] || mapfile -t COMPREPLY < <(compgen -A hostname -- "$word")
        ;;
    call)
        case $before in
        --types) compopt -o filenames && mapfile -t COMPREPLY < <(compgen -f -- "$word") ;;
        --dialect) mapfile -t COMPREPLY < <(compgen -W "rpcgen" -- "$word") ;;
        --define) : ;;
        --arguments) : ;;
        --port) : ;;
        --timeout) : ;;
        --xid) : ;;
        --uid) : ;;
        --gid) : ;;
        --gids) : ;;
        --machine) : ;;
        --depth) : ;;
        --bytes) : ;;
        *) mapfile -t COMPREPLY < <(compgen -W "--types --dialect --define --arguments --port --udp --timeout --xid --uid --gid --gids --machine --text --hex --indent --depth --bytes --help" -- "$word") ;;
        esac
        ((COMP_CWORD != 2)) || [[ $word == -* ]] || mapfile -t COMPREPLY < <(compgen -A hostname -- "$word")
        ;;
    ping)
        case $before in
        --types) compopt -o filenames && mapfile -t COMPREPLY < <(compgen -f -- "$word") ;;
        --dialect) mapfile -t COMPREPLY < <(compgen -W "rpcgen" -- "$word") ;;
        --define) : ;;
        --port) : ;;
        --timeout) : ;;
        --count) : ;;
        *) mapfile -t COMPREPLY < <(compgen -W "--types --dialect --define --port --udp --timeout --count --help" -- "$word") ;;
        esac
        ((COMP_CWORD != 2)) || [[ $word == -* ]] || mapfile -t COMPREPLY < <(compgen -A hostname -- "$word")
        ;;
    serve)
        case $before in
        --port) : ;;
        --bind) : ;;
        --connections) : ;;
        --idle) : ;;
        --local) : ;;
        --count) : ;;
        --datagrams) : ;;
        *) mapfile -t COMPREPLY < <(compgen -W "--port --bind --connections --idle --verbose --insecure --local --count --datagrams --help" -- "$word") ;;
        esac
        ;;
    esac
}
complete -F _oncrpc oncrpc
