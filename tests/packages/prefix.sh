# shellcheck shell=sh
# What tests/packages/run tests of what any user can install: the archive, unpacked into any folder, the
# wheel in a virtual environment, and the packages for npm in a project.

usr="$work/any where/.local"

# By the line of README, which unpacks it below the home folder.
unpacks_anywhere() {
    install_line 'mkdir -p ~/.local &&' >"$work/line" &&
        (cd "$dist" && HOME="$work/any where" sh "$work/line") && put_example "$work/example" || return 1
    (unset SMAP && cd "$work/example" && PATH="$usr/bin:$PATH" sh ./command >written && diff wanted written)
}

# Where there is no other file than the programs and those that they read: no C library, no /dev, no /proc.
runs_alone() {
    mkdir -p "$work/alone/share" && cp -R "$work/example/." "$usr/bin" "$work/alone" &&
        cp -R "$usr/share/smap" "$work/alone/share" || return 1
    as_root chroot "$work/alone" /bin/smap-trace --names dist/ crash.log >"$work/written" &&
        diff "$work/alone/wanted" "$work/written" &&
        as_root chroot "$work/alone" /bin/smap-view dist/cart.js.map >"$work/page.html" &&
        grep -q src/cart.ts "$work/page.html"
}

# The rows of tests/rows/, which otherwise run over the program that finds its C library when it starts.
archive_passes_rows() (
    unset SMAP_CAPI
    SMAP=$usr/bin/smap tests/rows/run
)

archive_compiles() {
    put_program c "$work/compiled" || return 1
    (
        cd "$work/compiled" && PKG_CONFIG_PATH=$usr/lib/pkgconfig &&
            export PKG_CONFIG_PATH && pkg-config --cflags --libs "smap = $library_version" >words &&
            eval "cc -o program program.c $(cat words)" &&
            LD_LIBRARY_PATH=$usr/lib ./program <out.js.map >written && diff program.c.out written
    )
}

venv=$work/venv

installs_wheel() {
    install_line 'pip install' >"$work/line" || return 1
    (
        cd "$dist" && PATH="$venv/bin:$PATH" PIP_NO_INDEX=1 PIP_DISABLE_PIP_VERSION_CHECK=1 sh "$work/line"
    ) && "$venv/bin/python" -m pip check &&
        [ "$(cd / && "$venv/bin/python" -c 'import smap; print(smap.__version__, smap.version())')" = \
            "$python_version $library_version" ]
}

# pip takes these wheels for musl too, and not for another processor. INSTALL has their names.
takes_wheels() {
    platform=$1
    shift
    "$venv/bin/python" -m pip download --no-index --disable-pip-version-check --no-deps --only-binary :all: \
        --platform "$platform" --dest "$work/taken" "$@"
}

wheels_are_for_musl() {
    takes_wheels musllinux_1_1_x86_64 "$wheel" "$programs" &&
        ! takes_wheels musllinux_1_1_aarch64 "$wheel" "$programs" || return 1
    [ -z "$arm_wheel" ] || {
        takes_wheels musllinux_1_1_aarch64 "$arm_wheel" "$arm_programs" &&
            takes_wheels manylinux_2_17_aarch64 "$arm_wheel" "$arm_programs" &&
            ! takes_wheels musllinux_1_1_x86_64 "$arm_wheel" "$arm_programs" || return 1
    }
    for file in "$wheel" "$programs" $arm_wheel $arm_programs; do
        grep -F "${file##*/}" docs/INSTALL.md || return 1
    done
}

wheel_runs_program() {
    put_program py "$work/python" || return 1
    (cd "$work/python" && "$venv/bin/python" program.py >written && diff program.py.out written)
}

# The example of its man page, which is there too.
wheel_runs_events() {
    page=$venv/share/man/man1/smap-events.1
    cmp packaging/man/smap-events.1 "$page" && mkdir "$work/events" || return 1
    sed -n '/^\.Ss Examples/,/^\.Ed/p' "$page" | sed -e '1,/^\.Bd/d' -e '/^\.Ed/d' >"$work/events/example"
    (
        cd "$work/events" && sed -n 's/^\$ //p' example >commands && grep -v '^\$ ' example >wanted &&
            PATH="$venv/bin:$PATH" sh ./commands >written 2>&1 && diff wanted written
    )
}

# Without the programs there is nothing to run, and a sentence says which wheel has them.
says_no_program() {
    (cd / && PATH=/nowhere "$venv/bin/python" -m smap --version) 2>"$work/said"
    [ "$?" -eq 127 ] && grep 'install the wheel smap-programs$' "$work/said"
}

installs_programs() {
    "$venv/bin/python" -m pip install --no-index --disable-pip-version-check "$programs"
}

# They run the first example of README, also by `python -m smap`, end with the program's status, and take its
# arguments as they are.
programs_run() {
    put_example "$work/programs-example" || return 1
    for program in smap smap-trace smap-maps smap-view; do
        cmp "packaging/man/$program.1" "$venv/share/man/man1/$program.1" || return 1
        [ "$(PATH=/nowhere "$venv/bin/$program" --version)" = "$says" ] || return 1
    done
    (
        cd "$work/programs-example" && PATH="$venv/bin:$PATH" sh ./command >written && diff wanted written &&
            [ "$(PATH=/nowhere "$venv/bin/python" -m smap --version)" = "$says" ] || exit 1
        "$venv/bin/smap-view" dist/cart.js.map >page.html && grep -q src/cart.ts page.html || exit 1
        printf x | "$venv/bin/smap" check 'http://h/a b'
        [ "$?" -eq 1 ] || exit 1
        "$venv/bin/smap-trace" "$(printf 'a=\377')" </dev/null 2>/dev/null
        [ "$?" -eq 2 ]
    )
}

removes_programs() {
    "$venv/bin/python" -m pip uninstall --disable-pip-version-check -y smap-programs &&
        [ -z "$(find "$venv" -name '*smap_programs*' -o -name 'smap-trace*' -o -name 'smap-maps*')" ]
}

# Of the sdist a wheel is made that has no library, and loads the one that is named.
sdist_makes_wheel() {
    mkdir "$work/sdist" && tar -xzf "$sdist" -C "$work/sdist" || return 1
    for builder in python3 /usr/bin/python3; do
        ! "$builder" -c 'import build, hatchling' 2>/dev/null || break
    done
    "$builder" -m build --no-isolation --skip-dependency-check --wheel --outdir "$work/sdist" \
        "$work/sdist/smap-$python_version" || return 1
    pure=$work/sdist/smap-$python_version-py3-none-any.whl
    "$venv/bin/python" -m pip install --no-index --disable-pip-version-check "$pure" && (
        cd / && [ "$(SMAP_LIBRARY="$lib/libsmap.so.0" "$venv/bin/python" -c 'import smap; print(smap.__version__)')" = \
            "$python_version" ] && ! "$venv/bin/python" -c 'import smap' 2>"$work/said" &&
            grep "ImportError: smap can't load its library: " "$work/said"
    )
}

# A type checker reads the module's types: it accepts a program that uses them well, and not one that doesn't.
has_types() (
    cat >"$work/well.py" <<'END'
import io, smap

with smap.Map.open(b"", "http://h/m/out.js.map") as m:
    text: str = m.translate("x", "http://h/m/out.js")
    data: bytes = m.translate(b"x", "http://h/m/out.js")
    found = m.lookup(0, 1)
    line: int = found.source_line if found else 0
store = smap.Store({"http://h/m/": "."}, cache_bytes=1)
told: str = store.translate("x")
same: int = store.translate_file(io.BytesIO(), io.BytesIO()).lines
store = smap.Store(lambda script: smap.Found(b"", script))
END
    sed 's/data: bytes/data: str/' "$work/well.py" >"$work/badly.py"
    set -- mypy --strict --python-executable "$venv/bin/python" --cache-dir "$work/mypy"
    cd "$work" || return 1
    "$@" well.py && ! "$@" badly.py >badly.log && grep '^badly.py:5: error: Incompatible types' badly.log
)

removes_wheel() {
    "$venv/bin/python" -m pip uninstall --disable-pip-version-check -y smap &&
        [ -z "$(find "$venv" -name '*smap*')" ]
}

project=$work/project

# Runs a command in the project, for which npm has a cache and a home of its own, and no network.
with_npm() (
    cd "$project" && npm_config_offline=true npm_config_audit=false npm_config_fund=false &&
        export npm_config_offline npm_config_audit npm_config_fund &&
        HOME=$work/npm-home npm_config_cache=$work/npm "$@"
)

# npm finds the package for the platform beside the one that the line of README names.
installs_npm() {
    mkdir "$project" "$work/npm-home" && cp "$dist"/smap-*.tgz "$project" &&
        echo '{"private":true}' >"$project/package.json" && install_line 'npm install' >"$work/line" &&
        with_npm sh "$work/line" &&
        [ "$(cd "$project" && node -p "require('smap').version")" = "$library_version" ]
}

# The programs of its manual, as they stand in what was installed, and a stack with smap/register.
npm_runs_programs() {
    put_node_programs "$project/programs" || return 1
    cmp "$project/node_modules/smap/README.md" capi/node/README.md || return 1
    (
        cd "$project/programs" || return 1
        for program in *.?js; do
            node "$program" >written 2>&1
            diff "$program.out" written || return 1
        done
        node --require smap/register thrown.js 2>written
        grep -F "at f ($PWD/a.ts:3:7)" written
    )
}

# The commands, as npm puts them on the PATH of its scripts: the first example of README, the numbers, a page
# of smap-view, and a status.
npm_has_commands() {
    put_example "$project/example" || return 1
    (
        unset SMAP
        PATH=$project/node_modules/.bin:$PATH
        export PATH
        cd "$project/example" && sh ./command >written && diff wanted written || return 1
        for program in smap smap-trace smap-maps smap-view; do
            [ "$($program --version)" = "$says" ] || return 1
        done
        smap-view dist/cart.js.map >page.html && grep -q src/cart.ts page.html || return 1
        echo '{"version":4}' | smap check http://h/x.map
        [ "$?" -eq 1 ]
    )
}

# All that its manual links to was installed, and nothing that only this repository can use.
npm_has_what_it_names() {
    [ -z "$(python3 -B tests/rows/pages.py links "$project/node_modules/smap/README.md" 2>&1)" ] &&
        ! find "$project/node_modules/smap" -name '*.[ch]' -o -name '*.sh' -o -name test | grep .
}

lacks_platform() {
    [ -z "$(find "$project/node_modules" -maxdepth 1 -name 'smap-*')" ]
}

# On ARM the package for it is taken, and no other.
npm_takes_arm() {
    with_npm npm ci --os=linux --cpu=arm64 &&
        [ "$(cd "$project/node_modules" && echo smap-*)" = smap-linux-arm64 ] && with_npm npm ci
}

# A project that was installed here, on a machine with another system: from its lock file, and from the start.
npm_leaves_platform_out() {
    set -- --os=darwin --cpu=arm64
    with_npm npm ci "$@" && lacks_platform || return 1
    echo 'Object.defineProperty(process, "platform", { value: "darwin" })' >"$project/mac.cjs"
    says_it='smap/register: smap runs on .*, and this is darwin-x64: .*'
    (cd "$project/programs" && node --require ../mac.cjs --require smap/register thrown.js 2>written
        grep -F "at f ($PWD/a.ts:3:7)" written || return 1
        grep -x "$says_it" written
        [ "$?" -eq "$([ -e ../node_modules/smap/smap.wasm ] && echo 1 || echo 0)" ]) || return 1
    [ ! -e "$project/node_modules/smap/smap.wasm" ] || { npm_runs_programs && npm_has_commands; } || return 1
    (cd "$project" && rm -rf node_modules package-lock.json && echo '{"private":true}' >package.json) &&
        with_npm npm install "$@" "./${npm_tgz##*/}" && lacks_platform &&
        with_npm npm ci && [ "$(cd "$project" && node -p "require('smap').version")" = "$library_version" ]
}

removes_npm() {
    with_npm npm uninstall smap && [ -z "$(find "$project/node_modules" -name '*smap*' 2>/dev/null)" ]
}

yarn_project=$work/yarn-project

# The same with yarn, whose modules in Debian only Debian's own Node searches.
with_yarn() (
    cd "$yarn_project" && HOME=$work/npm-home NODE_PATH=/usr/share/nodejs yarnpkg --offline --ignore-platform \
        --cache-folder "$work/$1" "$2" "$3"
)

# By the words of the manual; and once more by the lock file that this made, with an empty cache.
installs_yarn() {
    resolution=$(grep -o '"resolutions": {[^`]*}' capi/node/README.md) &&
        line=$(grep -o 'yarn add --ignore-platform [^`]*' capi/node/README.md) || return 1
    mkdir "$yarn_project" && cp "$dist"/smap-*.tgz "$yarn_project" &&
        echo "{\"private\":true,$resolution}" >"$yarn_project/package.json" &&
        with_yarn yarn add "${line##* }" && yarn_has_all && rm -r "$yarn_project/node_modules" &&
        with_yarn yarn-again install --frozen-lockfile && yarn_has_all
}

# The commands run, and so does a program.
yarn_has_all() {
    modules=$yarn_project/node_modules
    for program in smap smap-trace smap-maps smap-view; do
        [ "$("$modules/.bin/$program" --version)" = "$says" ] || return 1
    done
    [ "$(cd "$yarn_project" && node -p "require('smap').version")" = "$library_version" ]
}

removes_yarn() {
    with_yarn yarn remove smap && [ -z "$(find "$yarn_project/node_modules" -name '*smap*' 2>/dev/null)" ]
}

# Whether npm can be told that it is on another system.
npm_takes_system() {
    [ "$(npm config get os --os=darwin 2>/dev/null)" = darwin ]
}

test_npm() {
    try 'the package for npm is installed by the line of README' installs_npm || return
    try 'the package for npm runs the programs of its manual, and smap/register' npm_runs_programs
    try 'the package for npm has the commands' npm_has_commands
    try 'the package for npm has what its manual links to, and nothing of no use' npm_has_what_it_names
    if npm_takes_system; then
        [ ! -e "$npm_arm_tgz" ] || try 'the package for npm is installed on ARM' npm_takes_arm
        try 'the package for npm is installed on another system, without the addon' npm_leaves_platform_out
    else
        leave_out 'the package for npm on another system' 'npm here has no --os'
    fi
    try 'the package for npm is removed, and nothing stays' removes_npm
    if has yarnpkg 'the package for npm, installed by yarn'; then
        try 'the package for npm is installed by yarn' installs_yarn &&
            try 'the package for npm is removed by yarn' removes_yarn
    fi
}

test_python() {
    if ! python3 -c 'import ensurepip, venv' 2>/dev/null; then
        leave_out 'the wheels, installed' 'python3 has no venv here'
        return
    fi
    try 'a virtual environment is made' python3 -m venv "$venv" &&
        try 'the wheel is installed by the line of README' installs_wheel || return
    try 'the wheels are for musl too' wheels_are_for_musl
    try 'the wheel runs the Python program of its manual' wheel_runs_program
    try 'the wheel runs the example of smap-events' wheel_runs_events
    has mypy 'the types of the Python module' && try 'the wheel has types' has_types
    try 'python -m smap without the programs says so' says_no_program
    if try 'the wheel of the programs is installed' installs_programs; then
        try 'the wheel of the programs runs the first example of README' programs_run
        try 'the wheel of the programs is removed, and nothing stays' removes_programs
    fi
    try 'the wheel is removed, and nothing stays' removes_wheel
    try 'the sdist makes a wheel over the library of the system' sdist_makes_wheel
}

test_prefix() {
    try 'the archive, unpacked by the line of README, runs its first example' unpacks_anywhere
    ! can_be_root 'the programs of the archive, alone in a root' ||
        try 'the programs of the archive run alone in a root' runs_alone
    try 'the programs of the archive pass all rows' archive_passes_rows
    if has cc 'a C program with the archive' && has pkg-config 'a C program with the archive'; then
        try 'the archive compiles the C program of its manual' archive_compiles
    fi
    [ -z "$wheel" ] || test_python
    # It was made here, so that npm and node are here.
    [ ! -e "$npm_tgz" ] || test_npm
}
