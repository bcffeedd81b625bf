# shellcheck shell=bash
# Completion of smap, smap-trace, smap-maps, smap-view and smap-events for bash 4 and later. The package
# bash-completion loads this file once one of them is completed; without that package, `. smap.bash` in ~/.bashrc
# does.

# The options of each command. Those of smap-trace, smap-maps and smap-view are written by tools/options;
# tests/rows/completion.rows compares those of smap with --help, and tests/library/event_lines.py that of
# smap-events.
_smap_options='
smap: --version --help
smap check: --help
smap tidy: --relative --help
smap flatten: --help
smap lookup: --help
smap respell: --help
smap scripts: --help
smap translate: --hide-ignored --anywhere --ignore-query --names --help
smap compose: --relative --thin --used --help
smap-events: --no-raw --names --context --version --help
smap-trace: --frames-only --anywhere --hide-ignored --skip-broken --strict --no-chain --check-all --list --explain --names --context --url-bytes --source-prefix --quiet --verbose --version --help
smap-maps: --version --help
smap-maps check: --base --json --url-bytes --version --help
smap-maps tidy: --base --absolute --relative --write --drop --diff --json --url-bytes --version --help
smap-maps flatten: --base --write --drop --diff --json --url-bytes --version --help
smap-maps lint: --format --rule --min-mapped --url-bytes --version --help
smap-maps repair: --base --write --url-bytes --version --help
smap-maps compose: --write --drop --diff --json --thin --used --beside --map --url-bytes --version --help
smap-maps extract: --output --url-bytes --version --help
smap-maps comment: --write --set --remove --url-bytes --version --help
smap-maps inline: --write --url-bytes --version --help
smap-maps outline: --write --url-bytes --version --help
smap-maps contents: --write --drop --add --only --except --url-bytes --version --help
smap-maps rename: --write --source-prefix --strip-common --url-bytes --version --help
smap-maps debug-id: --write --url-bytes --version --help
smap-maps diff: --base --format --url-bytes --version --help
smap-view: --base --url-bytes --compare --sizes --budget --version --help
'

# What the values of options are: FILE, words to choose from, or what can't be completed. Written in the same
# way.
_smap_values='
smap-events --context:
smap-trace --explain:
smap-trace --context:
smap-trace --url-bytes:
smap-trace --source-prefix:
smap-trace -o: FILE
smap-maps --base:
smap-maps --only:
smap-maps --except:
smap-maps --source-prefix:
smap-maps --format: text gnu github sarif junit json markdown
smap-maps --rule:
smap-maps --min-mapped:
smap-maps --set:
smap-maps -o: FILE
smap-maps --output: FILE
smap-maps --map:
smap-maps --url-bytes:
smap-view --base:
smap-view --url-bytes:
smap-view -o: FILE
smap-view --compare: FILE
smap-view --sizes: table tsv json
smap-view --budget: FILE
'

# Writes what a program takes next: the options of one of its commands, or with one argument its commands.
_smap_words() {
    local line
    while IFS= read -r line; do
        case $# in
        1) [[ $line == "$1 "*:* ]] && line=${line%%:*} && echo "${line##* }" ;;
        *) [[ $line == "$1${2:+ $2}: "* ]] && echo "${line#*: }" ;;
        esac
    done <<<"$_smap_options"
}

# Writes what the value of an option of a program is. It fails where the word is no option with a value.
_smap_value() {
    local line
    while IFS= read -r line; do
        [[ $line != "$1 $2:"* ]] || { echo "${line#*:}" && return; }
    done <<<"$_smap_values"
    return 1
}

# Splits the line before the cursor into `words`, without their quotes, and sets `quote` to the quote that is
# open at its end. In bash's own COMP_WORDS a URL is split at each of its : and =. What bash replaces is the
# end of the line, $1; `kept` is set to what is before that in the last word.
_smap_split() {
    local LC_ALL=C line=${COMP_LINE:0:COMP_POINT} word='' in_word='' i c from
    from=$((${#line} - ${#1}))
    words=()
    quote=''
    kept=''
    for ((i = 0; i < ${#line}; i++)); do
        ((i != from)) || kept=$word
        c=${line:i:1}
        if [[ -n $quote && $c == "$quote" ]]; then
            quote=''
        elif [[ $quote == \' ]]; then
            word+=$c
        elif [[ $c == \\ && ($quote == '' || ${line:i+1:1} == [\\\"\$\`]) ]]; then
            word+=${line:i+1:1}
            ((i++))
            in_word=yes
        elif [[ -n $quote ]]; then
            word+=$c
        elif [[ $c == [\'\"] ]]; then
            quote=$c
            in_word=yes
        elif [[ $c == [[:space:]\<\>] ]]; then
            [[ -z $in_word ]] || words+=("$word")
            [[ $c == [[:space:]] ]] || words+=("$c")
            word=''
            in_word=''
        else
            word+=$c
            in_word=yes
        fi
    done
    ((i != from)) || kept=$word
    words+=("$word")
}

# Completes $2 to one of the words $1. (A process substitution would want /proc, which a container may lack.)
_smap_choose() {
    local found
    found=$(compgen -W "$1" -- "$2") && mapfile -t COMPREPLY <<<"$found"
}

# Sets `files` to the names that begin with $1, except those with control characters. compgen -f would take
# what is a quote or a backslash in a name for one of the line.
_smap_find() {
    local saved name
    saved=$(shopt -p nullglob dotglob failglob)
    [[ $- != *f* ]] || saved+='; set -f'
    shopt -s nullglob dotglob
    shopt -u failglob
    set +f
    files=()
    for name in "$1"*; do
        [[ $name == *[[:cntrl:]]* ]] || files+=("$name")
    done
    eval "$saved"
}

# Sets `name` to what stands for it in the line, within the quote that is open. In "" history expansion takes
# a ! even behind a backslash, so that stands between other quotes. bash itself leaves a $ or a ` as it is in
# what several names begin with, so it isn't asked.
_smap_quote() {
    local c
    case $quote in
    \') set -- ;;
    \") set -- \\ \" \$ \` ;;
    *) set -- \\ \" \$ \` \! \' ' ' '~' '#' '&' '*' '(' ')' '|' '[' ']' '{' '}' ';' '<' '>' '?' '^' ',' ;;
    esac
    for c; do
        name=${name//"$c"/"\\$c"}
    done
    case $quote in
    \') name=${name//\'/\'\\\'\'} ;;
    \") name=${name//\!/\"\'!\'\"} ;;
    esac
    # one that comes first takes the place of the open one
    [[ -z $quote || $name != "$quote"* ]] || name=$quote$name
}

# Completes the name of a file that begins with $1: maps and folders or, if there are none or $3 is `any`, any
# file. $2 is what stands before it in its word.
_smap_files() {
    local name files maps=() head=$2 tilde=''
    # the home folder, unless a quote or a backslash is before the ~
    [[ -n $quote$head || $piece != \~/* ]] || tilde=\~
    _smap_find "${tilde:+$HOME}${1#"$tilde"}"
    for name in "${files[@]}"; do
        [[ $name != *.map && ! -d $name ]] || maps+=("$name")
    done
    [[ ${#maps[@]} -eq 0 || $3 == any ]] || files=("${maps[@]}")
    for name in "${files[@]}"; do
        if [[ -d $name ]]; then
            name+=/
            compopt -o nospace
        fi
        [[ -z $tilde ]] || name=${name#"$HOME"}
        [[ -n $head || $name != -* ]] || name=./$name
        name=$head$name
        name=${name#"$kept"}
        _smap_quote
        COMPREPLY+=("$tilde$name")
    done
    # what is listed ends with the names alone
    compopt -o filenames -o noquote 2>/dev/null
}

_smap() {
    local program=${1##*/} piece=$2 words quote kept word before value command='' last i
    COMPREPLY=()
    _smap_split "$piece"
    last=$((${#words[@]} - 1))
    # `smap trace` and the others are the programs of that name, and lint and repair commands of smap-maps.
    if [[ $program == smap && $last -gt 1 ]]; then
        case ${words[1]} in
        trace | maps | view)
            program=smap-${words[1]}
            words=("${words[@]:1}")
            ((last--))
            ;;
        lint | repair) program=smap-maps ;;
        esac
    fi
    word=${words[last]}
    before=${words[last - 1]}
    if [[ $program == smap || $program == smap-maps ]]; then
        for ((i = 1; i < last; i++)); do
            if _smap_value "$program" "${words[i]}" >/dev/null; then
                ((i++))
            elif [[ ${words[i]} == [\<\>] ]]; then
                break
            elif [[ ${words[i]} != -* ]]; then
                command=${words[i]}
                break
            fi
        done
    fi
    case $program:$before in
    *:'<')
        case $program:$command in
        smap:check | smap:tidy | smap:flatten | smap:lookup) _smap_files "$word" '' ;;
        *) _smap_files "$word" '' any ;;
        esac
        return
        ;;
    *:'>')
        _smap_files "$word" '' any
        return
        ;;
    esac
    if value=$(_smap_value "$program" "$before"); then
        case $value in
        *FILE) _smap_files "$word" '' any ;;
        *) _smap_choose "$value" "$word" ;;
        esac
        return
    fi
    case $program:$word in
    *:-*) _smap_choose "$(_smap_words "$program" "$command")" "$word" ;;
    smap-trace:*=*)
        # After URL=FILE= comes another URL.
        local url=${word%=*}
        [[ -f ${url##*=} && $url == *=* ]] || _smap_files "${word##*=}" "${word%"${word##*=}"}"
        ;;
    smap-events:*=*) _smap_files "${word##*=}" "${word%"${word##*=}"}" ;;
    smap-trace:* | smap-events:*) _smap_files "$word" '' any ;;
    smap-view:*) _smap_files "$word" '' "$([[ $before != *.map ]] || echo any)" ;;
    *)
        if [[ -z $command ]]; then
            value=$(_smap_words "$program")
            [[ $program != smap ]] || value+=' trace maps lint repair view'
            _smap_choose "$value" "$word"
        elif [[ $program == smap-maps ]]; then
            _smap_files "$word" ''
        fi
        ;;
    esac
}

complete -F _smap smap smap-trace smap-maps smap-view smap-events
