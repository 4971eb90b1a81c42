# Completions of bench for bash: source this file.
_bench_words() {
    mapfile -t COMPREPLY < <(compgen -W "$1" -- "$2")
}

# (with -o filenames bash quotes the spaces of a name)
_bench_files() {
    compopt -o filenames
    mapfile -t COMPREPLY < <(compgen -f -- "$1")
}

_bench() {
    local word=${COMP_WORDS[COMP_CWORD]} before=${COMP_WORDS[COMP_CWORD - 1]} command='' place
    local commands="one assemble run check dump step stat export signals draw view judge complete cut compare reproduce explain help"
    for ((place = 1; place < COMP_CWORD; place++)); do
        case ${COMP_WORDS[place]} in
            --context) place=$((place + 1)) ;;
            -*) ;;
            *)
                command=${COMP_WORDS[place]}
                break
                ;;
        esac
    done
    case $before in
        --context)
            _bench_words "auto always never" "$word"
            return
            ;;
        --line)
            _bench_words "A B" "$word"
            return
            ;;
        --hex)
            _bench_words "0x" "$word"
            return
            ;;
        --by)
            if [ "$command" = draw ]; then
                _bench_words "line terminal" "$word"
            else
                _bench_words "terminal subaddress" "$word"
            fi
            return
            ;;
        --out | --report | --prologue | --judge | --junit | --setup | --signals)
            _bench_files "$word"
            return
            ;;
        --version | --limit | --queue | --pace | --channel | --only | --from | --to | --time | --time-channel | --within)
            [ -z "$command" ] || return
            ;;
    esac
    local options="--context --help"
    case $command in
        '') options="$options --version" ;;
        one) options="--channel --version $options" ;;
        assemble) options="--force $options" ;;
        run)
            options="--prologue --judge --signals --strict --complete --setup --time --time-channel $options"
            options="--second-time $options"
            options="--out --report --force $options"
            options="--live --pace --show --version --limit --queue --hold --drop $options"
            ;;
        check) options="--summary --decode --strict --signals $options" ;;
        dump)
            options="--skip --time --time-channel --decode --signals --by-time --json $options"
            options="--channel --line --only --errors --from --to $options"
            ;;
        stat)
            options="--csv --json --long --by --load --signals --time --time-channel $options"
            options="--channel --line --only --errors --from --to $options"
            ;;
        export)
            options="--out --force --frames --hex --signals --time --time-channel --vcd $options"
            options="--channel --line --only --errors --from --to $options"
            ;;
        signals)
            options="--out --force --wide --changes --time --time-channel $options"
            options="--channel --line --only --errors --from --to $options"
            ;;
        complete)
            options="--out --force --setup --auto-setup --time --time-channel --second-time $options"
            options="--version --skip $options"
            ;;
        cut) options="--out --force --skip --channel --line --only --errors --from --to $options" ;;
        reproduce) options="--channel --out --frames --force $options" ;;
        compare) options="--within --junit --json --force --channel --line --only --errors --from --to $options" ;;
        judge) options="--junit --json --force --signals --skip $options" ;;
        draw)
            options="--out --force --by --signals --time-channel $options"
            options="--channel --line --only --errors --from --to $options"
            ;;
        view) options="--out --force --signals --time-channel --channel --line --only --errors --from --to $options" ;;
    esac
    case $word in
        -*)
            _bench_words "$options" "$word"
            return
            ;;
    esac
    case $command in
        '') _bench_words "$commands" "$word" ;;
        help) _bench_words "$commands" "$word" ;;
        explain) _bench_words "$("${COMP_WORDS[0]}" explain 2>/dev/null | cut -d ' ' -f 1)" "$word" ;;
        *) _bench_files "$word" ;;
    esac
}
complete -F _bench bench
