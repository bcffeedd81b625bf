# shellcheck shell=sh
# What tests/packages/run tests of the completions: a line is typed into bash and zsh as a user does, with a
# tab, and fish is asked what it offers. Names that strangers might choose are completed in all three.

# The folder in which a command is completed.
put_lines() {
    mkdir -p "$1/dist/lazy" "$1/src" && touch "$1/dist/out.js" "$1/dist/out.js.map" "$1/crash.log"
}

# What is typed before a tab; what then stands there, without spaces, quotes and = at its end.
lines() {
    cat <<'END'
smap ti|smap tidy
smap tidy --rel|smap tidy --relative
smap check http://h/m/out.js.map <di|smap check http://h/m/out.js.map <dist/
smap-trace --li|smap-trace --list
smap-trace http://h/m/d|smap-trace http://h/m/d
smap-trace http://h/m/=di|smap-trace http://h/m/=dist/
smap-trace http://h/m/out.js=dist/o|smap-trace http://h/m/out.js=dist/out.js.map
smap-trace http://h/m/=dist/ 'C:\m\=sr|smap-trace http://h/m/=dist/ 'C:\m\=src/
smap-trace http://h/m/=dist/ <cr|smap-trace http://h/m/=dist/ <crash.log
smap-trace di|smap-trace dist/
smap-trace dist/ cr|smap-trace dist/ crash.log
smap-trace -o cr|smap-trace -o crash.log
smap-trace --sou|smap-trace --source-prefix
smap-trace --context cr|smap-trace --context cr
smap-maps fl|smap-maps flatten
smap-maps tidy --ba|smap-maps tidy --base
smap-maps --base http://h/m/ ch|smap-maps --base http://h/m/ check
smap-maps check d|smap-maps check dist/
smap-view --ba|smap-view --base
smap-view d|smap-view dist/
smap vi|smap view
smap trace --li|smap trace --list
smap trace dist/ cr|smap trace dist/ crash.log
smap maps tidy --ba|smap maps tidy --base
smap lint --fo|smap lint --format
smap repair d|smap repair dist/
END
}

# The same of smap-events, which comes with the Python module.
lines_of_events() {
    cat <<'END'
smap-events --no|smap-events --no-raw
smap-events --context cr|smap-events --context cr
smap-events http://h/m/=di|smap-events http://h/m/=dist/
smap-events http://h/m/out.js?v=dist/o|smap-events http://h/m/out.js?v=dist/out.js.map
smap-events http://h/m/=dist/ cr|smap-events http://h/m/=dist/ crash.log
END
}

# Types each line of a file and a tab into a shell, which the further words run.
completes() {
    file=$1
    shift
    tab=$(printf '\t')
    types=tests/packages/completion/typed.py
    while IFS='|' read -r typed wanted; do
        stands=$(TERM=dumb "$python" -B "$types" "$typed$tab" "$@" </dev/null) || return 1
        stands=$(printf '%s' "$stands" | sed "s/[ =']*$//")
        [ "$stands" = "$wanted" ] || {
            printf '%s: %s\n' "$typed" "$stands"
            return 1
        }
    done <"$file"
}

# bash with the completions of a folder, in the folder of the lines: it has to write the line for typed.py.
start_bash() {
    cat >"$1" <<END
PS1=\$'\\005'
cd $2
for command in smap smap-trace smap-maps smap-view smap-events; do . "$3/\$command"; done
bind -x '"\\C-x\\C-l": printf "\\002%s\\003" "\$READLINE_LINE"'
END
}

# The same for zsh, whose start file is in a folder of its own.
start_zsh() {
    mkdir -p "$1" && cat >"$1/.zshrc" <<END
PS1=\$'\\005'
cd $2
fpath=("$usr/share/zsh/site-functions" \$fpath)
autoload -Uz compinit && compinit -u -d $1/dump
line() { printf '\\002%s\\003' "\$BUFFER" }
zle -N line
bindkey '^X^L' line
END
}

start_fish() {
    cat >"$1" <<END
set -g fish_complete_path '$usr/share/fish/vendor_completions.d' \$fish_complete_path
set -g fish_greeting
function fish_prompt; printf '\005'; end
function fish_title; end
function line; printf '\002%s\003' (commandline | string collect); end
bind \cx\cl line
END
}

# What fish offers for a line. It completes only commands that it finds.
offered() {
    (
        cd "$work/completed" && PATH=$usr/bin:$PATH HOME=$work/fish fish --no-config -c "
            set -g fish_complete_path '$usr/share/fish/vendor_completions.d' \$fish_complete_path
            complete -C \"$1\"" | cut -f 1
    )
}

completes_in_fish() {
    mkdir -p "$work/fish"
    types=tests/packages/completion/typed.py
    while IFS='|' read -r typed wanted; do
        case $typed in *'<'* | *"'"*) continue ;; esac
        offered "$typed" >"$work/offered"
        last=${wanted##* }
        [ "$typed" != "$wanted" ] || last=
        [ "$(cat "$work/offered")" = "$last" ] || {
            printf '%s: %s\n' "$typed" "$(cat "$work/offered")"
            return 1
        }
    done <"$work/all-lines"
}

# Completes names that strangers might choose, in the shell that the words run.
completes_names() {
    shell=$1
    shift
    mkdir -p "$work/names" && "$python" -B tests/packages/completion/names.py "$work/names/$shell" "$@"
}

# Sets python to the one that has pexpect: that of the PATH, or Debian's.
has_pexpect() {
    for python in python3 /usr/bin/python3; do
        "$python" -c 'import pexpect' 2>/dev/null && return
    done
    python=
    leave_out "$1" 'no python3-pexpect here'
    false
}

# The lines that are completed, and the Python that types them.
prepares_completion() {
    lines >"$work/lines"
    lines_of_events >"$work/lines-of-events"
    has_pexpect "$1"
}

test_completion() {
    prepares_completion 'the completions' || return
    put_lines "$work/completed"
    cat "$work/lines" "$work/lines-of-events" >"$work/all-lines"
    if has bash 'completion in bash'; then
        start_bash "$work/bashrc" "$work/completed" "$usr/share/bash-completion/completions"
        try 'bash completes commands' completes "$work/all-lines" bash --noprofile --rcfile "$work/bashrc" -i
        start_bash "$work/names-bashrc" . "$usr/share/bash-completion/completions"
        try 'bash completes any name' completes_names bash bash --noprofile --rcfile "$work/names-bashrc" -i
    fi
    if has zsh 'completion in zsh'; then
        start_zsh "$work/zsh" "$work/completed"
        try 'zsh completes commands' completes "$work/all-lines" env ZDOTDIR="$work/zsh" zsh -d -i
        start_zsh "$work/names-zsh" .
        try 'zsh completes any name' completes_names zsh env ZDOTDIR="$work/names-zsh" zsh -d -i
    fi
    if has fish 'completion in fish'; then
        try 'fish completes commands' completes_in_fish
        start_fish "$work/names.fish"
        try 'fish completes any name' completes_names fish \
            env HOME="$work/fish" fish --no-config --init-command "source $work/names.fish" -i
    fi
}
