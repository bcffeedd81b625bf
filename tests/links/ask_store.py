"""Asks a store of the Python module to translate a log. run writes its places and options as JSON."""

import json
import sys

import smap

asked = json.load(sys.stdin)
log = asked["log"].encode("latin-1")
with smap.Store(smap.Folders(asked["places"])) as store:
    sys.stdout.buffer.write(store.translate(log, ignore_query=asked["ignore_query"]))
    for script, fault in store.broken.items():
        print(f"{script}: {type(fault).__name__}: {fault}", file=sys.stderr)
