# Completion of smap-view for fish. tests/rows/completion.rows compares its options with --help.

# written by tools/options
complete -c smap-view -x -l base -d 'The map\'s URL is URL/ and its name, or its path below FOLDER, instead of its file: URL'
complete -c smap-view -x -l url-bytes -d 'Refuse a map if the URLs of its sources take more than N bytes (default 67108864)'
complete -c smap-view -r -F -s o -d 'Write the page to FILE, which changes only when all is written'
complete -c smap-view -r -F -l compare -d 'Show what grew and what shrank since OLD, the map, script or folder of another build'
complete -c smap-view -x -l sizes -a 'table tsv json' -d 'Write no page, but the bytes and mappings of each source: table, tsv or json'
complete -c smap-view -r -F -l budget -d 'Write no page; fail where sources have more bytes than FILE, or OLD and +5% or +10KB, allows'
complete -c smap-view -s V -l version -d 'Print the version'
complete -c smap-view -s h -l help -d 'Print help'
# end of what tools/options writes
complete -c smap-view -f -k -a '(__fish_complete_suffix .map)'
