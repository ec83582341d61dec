# Completions of ccsuite for bash: the commands, and files for their cue lists and after < and >; numbers and times are left to the user.

_ccsuite() {
    local word=${COMP_WORDS[COMP_CWORD]}
    COMPREPLY=()
    if [[ ${COMP_WORDS[COMP_CWORD - 1]} == *[\<\>]* ]]; then
        compopt -o default 2> /dev/null
    elif ((COMP_CWORD == 1)); then
        COMPREPLY=($(compgen -W 'build pairs cues fit dual xds decode show conceal xds-show verify insert import export import-mcc export-mcc convert load help version' -- "$word"))
    elif [[ "$COMP_CWORD ${COMP_WORDS[1]}" == @(2 verify|2 insert|2 dual|2 xds|3 fit) ]]; then
        compopt -o filenames 2> /dev/null
        mapfile -t COMPREPLY < <(compgen -f -- "$word")
    elif ((COMP_CWORD == 2)) && [[ ${COMP_WORDS[1]} == help ]]; then
        COMPREPLY=($(compgen -W 'build pairs cues fit dual xds decode show conceal xds-show verify insert import export import-mcc export-mcc convert load help version' -- "$word"))
    elif ((COMP_CWORD == 2)) && [[ ${COMP_WORDS[1]} == export-mcc ]]; then
        COMPREPLY=($(compgen -W '24 25 30 30DF 50 60 60DF' -- "$word"))
    fi
}

complete -F _ccsuite ccsuite
