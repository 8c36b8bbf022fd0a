# Completion of cfetbl's words, options and files for bash.
_cfetbl() {
    local current=${COMP_WORDS[COMP_CWORD]} words=''
    local all='play crew watch drill repl show text make describe file table store resets map report xtce cosmos serve call compare cfe-app states crash-test explain test'
    COMPREPLY=()
    case $COMP_CWORD:${COMP_WORDS[1]} in
        1:*) words="$all help --help --version --program" ;;
        *:help) words=$all ;;
        *:play | *:crew) words='--admit --store --durable --show --text --all --json --color --diff --pcap --shape --shape-of --help' ;;
        *:watch) words='--store --durable --text --report --help' ;;
        *:show) words='--all --json --color --end --diff --pcap --shape --shape-of --session-order --check --help' ;;
        *:text) words='--back --kind --help' ;;
        *:make | *:describe) words='-o --help' ;;
        *:report) words='-o --store --durable --shape --shape-of --help' ;;
        2:table) words='build shape dump diff set check --help' ;;
        *:table) words='-o --member --json --xtce --openc3 --base --time --spacecraft --processor --help' ;;
        *:map) words='-o --store --help' ;;
        *:serve) words='--cfe-layout --big-endian --debug-events --event-ids --any-checksum --quiet --housekeeping --manage --app --app-limit --listen --command-port --to --telemetry-port --socket --files --script --clock --store --durable --help' ;;
        *:xtce) words='-o --cfe-layout --big-endian --event-ids --base --help' ;;
        *:cosmos) words='-o --cfe-layout --big-endian --event-ids --help' ;;
        *:compare) words='--expect --help' ;;
        *:cfe-app | *:states) words='-o --cover --help' ;;
        *:crash-test) words='--json --html --help' ;;
        *:drill) words='--store --durable --help' ;;
        *:test) words='--quick --help' ;;
        *:explain | *:file | *:call) words='--help' ;;
        *:repl) words='--store --shape --shape-of --help' ;;
        *:store) words='--long --all --store --help' ;;
        *:resets) words='--store --every --html --mirror --help' ;;
    esac
    if [ "$COMP_CWORD" -eq 1 ] || [ "${COMP_WORDS[1]}" = help ] || [[ $COMP_CWORD:${COMP_WORDS[1]} == 2:table || $current == -* ]]; then
        mapfile -t COMPREPLY < <(compgen -W "$words" -- "$current")
    else
        compopt -o filenames 2> /dev/null
        mapfile -t COMPREPLY < <(compgen -f -- "$current")
    fi
}
complete -F _cfetbl cfetbl
