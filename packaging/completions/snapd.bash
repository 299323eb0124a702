# Completes the words of snapd in bash.
_snapd_offer() {
    [[ $1 == -W ]] || compopt -o filenames 2> /dev/null
    mapfile -t COMPREPLY < <(compgen "$@" -- "$word")
}
_snapd() {
    local word=${COMP_WORDS[COMP_CWORD]} before=${COMP_WORDS[COMP_CWORD-1]}
    local command=${COMP_WORDS[1]} place=0 at=2
    COMPREPLY=()
    if [[ $word == = ]]; then
        word=
    elif [[ $before == = ]]; then
        before=${COMP_WORDS[COMP_CWORD-2]}
    fi
    if ((COMP_CWORD < 2)); then
        _snapd_offer -W 'format put get check migrate init doctor serve call watch dump load script help --help --version'
        return
    fi
    while ((at < COMP_CWORD)); do
        case ${COMP_WORDS[at]} in
            :*) ((at += 2)) ;;
            --index|--count|--index|--count|--index|--count|--slot|--index|--count|--count|--dir|--listen|--socket-mode|--http|--scanners|--connections|--clients-max|--idle|--log|--tries|--wait|--timeout|--value|--after|--every|--tries|--wait|--timeout|--count)
                [[ ${COMP_WORDS[at+1]} != = ]] || ((at += 1))
                ((at += 2)) ;;
            -*) ((at += 1)) ;;
            *) ((place += 1, at += 1)) ;;
        esac
    done
    case $command:$before in
        format:--index) return ;;
        format:--count) return ;;
        put:--index) return ;;
        put:--count) return ;;
        get:--index) return ;;
        get:--count) return ;;
        check:--slot) return ;;
        migrate:--index) return ;;
        migrate:--count) return ;;
        init:--count) return ;;
        serve:--dir) _snapd_offer -d; return ;;
        serve:--listen) return ;;
        serve:--socket-mode) return ;;
        serve:--http) return ;;
        serve:--scanners) return ;;
        serve:--connections) return ;;
        serve:--clients-max) return ;;
        serve:--idle) return ;;
        serve:--log) _snapd_offer -W 'error warn info debug'; return ;;
        call:--tries) return ;;
        call:--wait) return ;;
        call:--timeout) return ;;
        call:--value) return ;;
        call:--after) return ;;
        watch:--every) return ;;
        dump:--tries) return ;;
        dump:--wait) return ;;
        dump:--timeout) return ;;
        load:--count) return ;;
    esac
    if [[ $word == -* ]]; then
        case $command in
            format) _snapd_offer -W '--index --count --help --version' ;;
            put) _snapd_offer -W '--index --count --help --version' ;;
            get) _snapd_offer -W '--index --count --help --version' ;;
            check) _snapd_offer -W '--json --slot --value --help --version' ;;
            migrate) _snapd_offer -W '--index --count --help --version' ;;
            init) _snapd_offer -W '--count --missing-empty --help --version' ;;
            doctor) _snapd_offer -W '--measure --help --version' ;;
            serve) _snapd_offer -W '--dir --listen --socket-mode --http --scanners --connections --clients-max --idle --log --help --version' ;;
            call) _snapd_offer -W '--tries --wait --timeout --value --after --text --json --help --version' ;;
            watch) _snapd_offer -W '--every --json --help --version' ;;
            dump) _snapd_offer -W '--tries --wait --timeout --help --version' ;;
            load) _snapd_offer -W '--count --help --version' ;;
            script) _snapd_offer -W '--help --version' ;;
        esac
        return
    fi
    case $command:$place in
        format:0) _snapd_offer -f; ;;
        put:0) _snapd_offer -f; ;;
        get:0) _snapd_offer -f; ;;
        check:0) _snapd_offer -f; ;;
        migrate:0) _snapd_offer -f; ;;
        migrate:1) _snapd_offer -f; ;;
        init:0) _snapd_offer -d; ;;
        doctor:0) _snapd_offer -d; ;;
        serve:0) ;;
        serve:*) _snapd_offer -f; ;;
        call:0) ;;
        call:1) _snapd_offer -W 'put get update scan part status health'; ;;
        watch:0) ;;
        watch:*) ;;
        dump:0) _snapd_offer -d; ;;
        load:0) _snapd_offer -d; ;;
        load:1) _snapd_offer -f; ;;
        help:0) _snapd_offer -W 'format put get check migrate init doctor serve call watch dump load script'; ;;
    esac
}
complete -F _snapd snapd
