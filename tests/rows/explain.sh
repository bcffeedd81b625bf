# shellcheck shell=sh
# What the rows of smap-trace-explain share: a folder with a script and its map.

# Makes dist/js/app.js, whose first line has 21 columns, and its map.
shop() {
    mkdir -p dist/js
    printf 'f=x=>three(x);f(1234)\n//# sourceMappingURL=app.js.map\n' >dist/js/app.js
    printf '%s' '{"version":3,"sources":["../src/cart.ts"],"sourcesContent":["one\ntwo\n  three(x)\nfour"],"mappings":"AAEE"}' >dist/js/app.js.map
}
