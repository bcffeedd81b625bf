# shellcheck shell=sh disable=SC2154
# What the rows about pages use, read by `.` after work.sh.

# Runs the blocks of sh of a page as they are pasted, one after the other, in the folder $work/temp, but for those
# below the headings that are named besides. Writes the name and the status of each, and then, if the page shows
# what the block writes, how that differs, or else what it writes; line feeds at the end don't count.
run_blocks() {
    python3 -B "$rows/pages.py" blocks "$rows/$1" blocks >names || return
    shift
    mkdir -p bin temp
    ln -sf "$SMAP" bin/smap
    ln -sf smap bin/smap-trace
    ln -sf smap bin/smap-maps
    ln -sf smap bin/smap-view
    for heading in "$@"; do
        grep -q "^$heading-[0-9]*$" names || echo "no block below $heading"
    done
    while IFS= read -r name; do
        case " $* " in *" ${name%-*} "*) continue ;; esac
        written=$(cd temp && PATH=$work/bin:$PATH sh "../blocks/$name.sh" 2>&1)
        echo "$name $?"
        if [ -e "blocks/$name.out" ]; then
            printf '%s\n' "$written" | diff "blocks/$name.out" -
        elif [ -n "$written" ]; then
            printf '%s\n' "$written"
        fi
    done <names
}

# Runs the commands of the table of MAPS, one after the other, over two builds of a script. Writes the status of
# each before it, and what it writes to written-N.
run_commands() {
    python3 -B "$rows/pages.py" column "$rows/../../docs/MAPS.md" what-people-do-with-maps 2 >commands
    for build in old dist; do
        mkdir "$build"
        printf 'f("%s");\n//# sourceMappingURL=app.js.map\n' "$build" >"$build/app.js"
    done
    mkdir bin
    ln -s "$SMAP" bin/smap-maps
    ln -s smap-maps bin/smap-trace
    ln -s smap-maps bin/smap-view
    PATH=$work/bin:$PATH
    n=0
    printf '{"version":3,"sources":["a.ts"],"sourcesContent":["f()"],"mappings":"AAAA"}' >old/app.js.map
    printf '{"version":"3","sources":["a.ts"],"sourcesContent":["g()"],"mappings":"AAAA,EAAE"}' >dist/app.js.map
    printf 'g()' >dist/a.ts
    while IFS= read -r command; do
        sh -c "$command" >"written-$((n += 1))" 2>&1
        echo "$? $command"
    done <commands
}

# Puts a stand-in for `rt run -- ARGUMENT...` in the folder of the program on the PATH.
stand_in_for_rt() {
    mkdir -p bin
    cat >bin/rt <<'END'
#!/bin/sh
[ "${PWD##*/crates/}" = smap ] && [ "$1 $2" = 'run --' ] && shift 2 && exec "$SMAP" "$@"
END
    chmod +x bin/rt
}

# Puts what tools/install installs into the folder $work/temp, with stand-ins for what takes long: `rt`, and
# the scripts that build the library and the packages.
stand_in_for_repository() {
    stand_in_for_rt
    mkdir -p temp/crates/smap temp/crates/smap_view_run temp/capi temp/packaging
    cp -R "$rows/../../tools" "$rows/../../docs" "$rows/../../VERSION" temp
    cp "$rows/../../crates/smap_view_run/smap-view.html" temp/crates/smap_view_run
    cp -R "$rows/../../packaging/completion" "$rows/../../packaging/man" temp/packaging
    for name in cpp python rust examples; do
        cp -R "$rows/../../capi/$name" temp/capi
    done
    cat >temp/tools/build-capi <<'END'
#!/bin/sh
mkdir -p capi/out && cd capi/out && touch libsmap.a libsmap.so.0 smap.h smap.pc
END
    printf '#!/bin/sh\nmkdir -p dist\n' >temp/tools/build-packages
    cp temp/tools/build-packages temp/tools/build
}
