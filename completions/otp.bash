# Completions of otp for bash: source this file. Made by tools/words.
_otp() {
    local word=${COMP_WORDS[COMP_CWORD]} command=${COMP_WORDS[1]-} options=""
    if [ "$COMP_CWORD" = 1 ]; then
        COMPREPLY=($(compgen -W "check diff import limits replay run shutdown sim suggest tree try help --help --version" -- "$word"))
        return
    fi
    case ${COMP_WORDS[COMP_CWORD-1]} in
        --clock) COMPREPLY=($(compgen -W "milliseconds seconds" -- "$word")); return ;;
    esac
    case $command in
        check) options="--run --lint --all --json --help" ;;
        diff) options="--json --help" ;;
        import) options="--commands --help" ;;
        limits) options="--child --table --each --json --html --help" ;;
        replay) options="--unmatched --timeline --quiet --clock --width --ids --strict --json --help" ;;
        run) options="--schedulers --turns --counts --tree --why --for --grace --log --json --help" ;;
        shutdown) options="--within --json --help" ;;
        sim) options="--help" ;;
        suggest) options="--child --every --times --within --root --json --help" ;;
        tree) options="--json --html --help" ;;
        try) options="--prompt --timeline --quiet --clock --width --tap --json --html --help" ;;
        help) COMPREPLY=($(compgen -W "check diff import limits replay run shutdown sim suggest tree try script lines file logs otp" -- "$word")); return ;;
    esac
    case $word in
        -*) COMPREPLY=($(compgen -W "$options" -- "$word")) ;;
        *) COMPREPLY=($(compgen -f -- "$word")) ;;
    esac
}
complete -o filenames -F _otp otp
