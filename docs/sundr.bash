# Completion of the words of sundr and sundrd for bash: `. docs/sundr.bash`, or tools/install puts it where bash looks.
# tools/completion makes it of what the programs' help tells.

# Adds to the words that are offered: those that bash finds so for the word that stands there.
_sundr_offer() {
    local found
    mapfile -t found < <(compgen "$@" -- "${COMP_WORDS[COMP_CWORD]}")
    COMPREPLY+=("${found[@]}")
}

_sundr() {
    # The command, and how many words come between it and this one.
    local before=${COMP_WORDS[COMP_CWORD - 1]} command= at place=0
    for ((at = 1; at < COMP_CWORD; at++)); do
        if [[ -n $command ]]; then
            ((place += 1))
        elif [[ ${COMP_WORDS[at]} == @(--dir|--server|--user) ]]; then
            ((at += 1))
        elif [[ ${COMP_WORDS[at]} != -* ]]; then
            command=${COMP_WORDS[at]}
        fi
    done
    COMPREPLY=()
    case $command.$place in
        .*)
            case $before in
                --dir) _sundr_offer -d ;;
                --server | --user) : ;;
                *) _sundr_offer -W "--dir --server --user --moved --help --version init key status users ls cat put get mkdir rm mv link adduser setkey addmember dropmember admin renew batch help" ;;
            esac
            ;;
        init.0) _sundr_offer -d ;;
        init.2) _sundr_offer -f ;;
        ls.*) _sundr_offer -W "--long --help" ;;
        put.*) _sundr_offer -W "--recursive --help"; _sundr_offer -f ;;
        get.*) _sundr_offer -W "--recursive --help"; _sundr_offer -f ;;
        admin.0) _sundr_offer -f ;;
        renew.*) _sundr_offer -W "--early --help" ;;
        batch.*) _sundr_offer -W "--stop --help" ;;
        help.0) _sundr_offer -W "init key status users ls cat put get mkdir rm mv link adduser setkey addmember dropmember admin renew batch help" ;;
        *) _sundr_offer -W "--help" ;;
    esac
}
complete -F _sundr sundr

_sundrd() {
    local before=${COMP_WORDS[COMP_CWORD - 1]}
    COMPREPLY=()
    case $before in
        --listen | --connections | --at-once | --idle | --room) : ;;
        --super | --log) _sundr_offer -f ;;
        --keep) _sundr_offer -d ;;
        *) _sundr_offer -W "--listen --super --keep --log --connections --at-once --idle --room --help --version" ;;
    esac
}
complete -F _sundrd sundrd
