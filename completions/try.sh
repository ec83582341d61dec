#!/usr/bin/env bash
# Tries the completions that lie under a prefix, by running each shell that is there: try.sh PREFIX
#
# A shell is given the start of a command line, and must offer exactly the words that follow. After `<` it offers files: in bash, whose completions of a
# program stand in the way of them, a line is typed in a terminal.
prefix=$1
here=$(realpath "$(dirname "$0")")
folder=$(mktemp -d)
trap 'rm -rf "$folder"' EXIT
cd "$folder" || exit 1
# Files that a completion of files would offer. `build` is a folder, since its name is a command's too.
echo 'a list' > list.csv
mkdir build
failed=0

# offers SHELL LINE WANTED: what the shell offers at the end of LINE is WANTED, words with blanks between, in any order.
offers() {
    local got wanted
    got=$("$1_offers" "$2" | sort | xargs)
    wanted=$(xargs -n 1 <<< "$3" | sort | xargs)
    if [ "$got" != "$wanted" ]; then
        echo "$1 offers '$got' and not '$wanted' behind '$2'"
        failed=1
    fi
}

# reads LINE WANTED: with a Tab after LINE the program reads WANTED, in bash.
reads() {
    local got
    command -v python3 > /dev/null || return
    got=$("$here/type.py" "$prefix/share/bash-completion/completions/ccsuite" "$1"$'\t')
    if [ "$got" != "$2" ]; then
        echo "bash: after '$1' and a Tab: $got"
        failed=1
    fi
}

# What bash's function for the line's program makes of the line.
bash_offers() {
    bash --norc -c '
        source "$1/share/bash-completion/completions/${2%% *}"
        read -r -a COMP_WORDS <<< "$2"
        [[ $2 == *" " ]] && COMP_WORDS+=("")
        COMP_CWORD=$((${#COMP_WORDS[@]} - 1))
        $(complete -p "${2%% *}" | sed "s/.*-F \([^ ]*\).*/\1/")
        printf "%s\n" "${COMPREPLY[@]}"' bash "$prefix" "$1"
}

# What zsh hands to compadd when the Tab key is pressed: a shell in a terminal of its own is typed the line.
zsh_offers() {
    zsh -f -c '
        zmodload zsh/zpty
        zpty shell zsh -f -i
        zpty -w shell "PS1= PROMPT= RPS1= TERM=dumb; unsetopt zle_bracketed_paste 2> /dev/null"
        zpty -w shell "fpath=($1/share/zsh/*-(functions|completions) \$fpath); autoload -Uz compinit; compinit -u -D"
        zpty -w shell "compadd() { builtin compadd -A hits \"\$@\"; print -l -- \$hits > offered.\$\$.\$RANDOM; builtin compadd \"\$@\" }"
        zpty -w shell "listed() { zle complete-word; print -r -- done > finished }; zle -N listed; bindkey \"^I\" listed"
        zpty -w -n shell "$2"$'"'\t'"'
        for turn in {1..100}; do [[ -e finished ]] && break; sleep 0.1; done
        zpty -d shell' zsh "$prefix" "$1"
    sleep 0.1
    cat offered.* 2> /dev/null | grep -v '^$' | sort -u
    rm -f offered.* finished
}

# What fish says that it would offer.
fish_offers() {
    HOME=$folder fish --no-config -c '
        source $argv[1]/share/fish/vendor_completions.d/(string split -f 1 " " $argv[2]).fish
        complete -C $argv[2]' "$prefix" "$1" | cut -f 1 | sed 's:/$::'
}

for shell in bash zsh fish; do
    if ! command -v "$shell" > /dev/null; then
        echo "$shell isn't installed: its completions weren't tried"
        continue
    fi
    offers "$shell" 'ccsuite ' 'build pairs cues fit dual xds decode show conceal xds-show verify insert import export import-mcc export-mcc convert load help version'
    offers "$shell" 'ccsuite b' 'build'
    offers "$shell" 'ccsuite c' 'cues conceal convert'
    offers "$shell" 'ccsuite q' ''
    offers "$shell" 'ccsuite show ' ''
    offers "$shell" 'ccsuite build ' ''
    offers "$shell" 'ccsuite conceal ' ''
    offers "$shell" 'ccsuite x' 'xds xds-show'
    offers "$shell" 'ccsuite xds-show ' ''
    offers "$shell" 'ccsuite convert ' ''
    offers "$shell" 'ccsuite verify ' 'build list.csv'
    offers "$shell" 'ccsuite verify list.csv ' ''
    offers "$shell" 'ccsuite insert l' 'list.csv'
    offers "$shell" 'ccsuite insert list.csv ' ''
    offers "$shell" 'ccsuite load ' ''
    offers "$shell" 'ccsuite dual l' 'list.csv'
    offers "$shell" 'ccsuite fit 45 l' 'list.csv'
    offers "$shell" 'ccsuite i' 'insert import import-mcc'
    offers "$shell" 'ccsuite import-mcc ' ''
    offers "$shell" 'ccsuite export-mcc 6' '60 60DF'
    offers "$shell" 'ccsuite export-mcc 60 ' ''
    offers "$shell" 'ccsuite xds l' 'list.csv'
    offers "$shell" 'ccsuite-subtitles --r' '--rate --replace --row'
    offers "$shell" 'ccsuite-subtitles --on C' 'CC1 CC3'
    offers "$shell" 'ccsuite-subtitles --rate 59.94 --on S6 l' 'list.csv'
    offers "$shell" 'ccsuite-subtitles --late ' ''
    if [ "$shell" = bash ]; then
        reads 'ccsuite build < l' 'a list'
        reads 'ccsuite verify list.csv < l' 'a list'
        reads 'ccsuite < l' 'a list'
    else
        offers "$shell" 'ccsuite build < l' 'list.csv'
        offers "$shell" 'ccsuite verify list.csv < l' 'list.csv'
    fi
    [ "$failed" = 0 ] && echo "completions of $shell: as they should be"
done
exit "$failed"
