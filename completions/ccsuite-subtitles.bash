# Completions of ccsuite-subtitles for bash: its options, what they take, and files; rows, frames and encodings are left to the user.

_ccsuite_subtitles() {
    local word=${COMP_WORDS[COMP_CWORD]}
    COMPREPLY=()
    case ${COMP_WORDS[COMP_CWORD - 1]} in
    --on) COMPREPLY=($(compgen -W 'CC1 CC3 S1 S2 S3 S4 S5 S6' -- "$word")) ;;
    --rate) COMPREPLY=($(compgen -W '29.97 30 59.94 60' -- "$word")) ;;
    --row | --late | --encoding) ;;
    *[\<\>]*) compopt -o default 2> /dev/null ;;
    *)
        if [[ $word == -* ]]; then
            COMPREPLY=($(compgen -W '--on --rate --row --late --encoding --replace --help' -- "$word"))
        else
            compopt -o filenames 2> /dev/null
            mapfile -t COMPREPLY < <(compgen -f -- "$word")
        fi
        ;;
    esac
}

complete -F _ccsuite_subtitles ccsuite-subtitles
