# Completion of smap-trace for fish. tests/rows/completion.rows compares its options with --help.

# written by tools/options
complete -c smap-trace -l frames-only -d 'Translate only lines that are stack frames, with nothing around them'
complete -c smap-trace -l anywhere -d 'Find positions anywhere in a line, as without --frames-only'
complete -c smap-trace -l hide-ignored -d 'Leave out frames in ignored sources (libraries, mostly)'
complete -c smap-trace -l skip-broken -d 'Leave out maps that smap refuses, naming each; the status is 0 then'
complete -c smap-trace -l strict -d 'Stop where smap refuses a map. Of logs that are files nothing is translated then'
complete -c smap-trace -l no-chain -d 'Stop at the first source, also where that has a map of its own'
complete -c smap-trace -l check-all -d 'Check every map, those too whose scripts the log doesn\'t name'
complete -c smap-trace -l list -d 'List the scripts that the log names: how often, and whether each has a map'
complete -c smap-trace -x -l explain -d 'Say step by step why POSITION, or the line of a log, becomes that of a source, or stays'
complete -c smap-trace -l names -d 'Write the names of functions in frames, where the source\'s text in the map says them surely'
complete -c smap-trace -x -l context -d 'Show N lines of the source around each position, where the map has its text'
complete -c smap-trace -x -l url-bytes -d 'Refuse a map if the URLs of its sources take more than N bytes (default 67108864)'
complete -c smap-trace -x -l source-prefix -d 'Write TO for FROM at the start of a source\'s URL. Of several the first that fits counts'
complete -c smap-trace -r -F -s o -d 'Write to FILE, which changes only when all is written'
complete -c smap-trace -s q -l quiet -d 'Say nothing at the end of what was not translated'
complete -c smap-trace -s v -l verbose -d 'Say which maps are opened, and for which names in the log'
complete -c smap-trace -s V -l version -d 'Print the version'
complete -c smap-trace -s h -l help -d 'Print help'
# end of what tools/options writes
complete -c smap-trace -n '__smap_trace_has_url' -f -a '(__smap_trace_maps)'

# Whether the word that is completed has a =. Without one it is a folder or a log, which fish completes itself.
function __smap_trace_has_url
    string match -q -r '^[^-].*=' -- (commandline -ct | string collect)
end

# Leaves the URL alone, and completes the file or the folder after its =: maps and folders or, if there are
# none, any file. After URL=FILE= comes another URL. Names with control characters are left out, since a name
# is a line, up to a tab.
function __smap_trace_maps
    # the word is as it was typed, and a quote may be open
    set -l typed (commandline -ct | string collect)
    set -l word (string unescape -- $typed; or string unescape -- $typed\'; or string unescape -- $typed\")
    set -l path (string replace -r '.*=' '' -- $word)
    set -l head (string replace -r '[^=]*$' '' -- $word)
    set -l before (string replace -r '.*=' '' -- (string replace -r '=$' '' -- $head))
    string match -q '*=*=' -- $head; and test -f "$before"; and return
    set -l found $path*.map $path*/
    set -q found[1]; or set found $path*
    for name in $found
        string match -q -r '[[:cntrl:]]' -- $name; or printf '%s\n' $head$name
    end
end
