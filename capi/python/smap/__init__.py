"""Source maps: looked up, put into canonical form, and stack traces translated by them.

    import smap

    with smap.Map.from_file("out.js.map", "http://h/m/out.js.map") as m:
        found = m.lookup(0, 7)
        print(found.url, found.source_line, found.source_column, found.name)
        print(m.translate(log, "http://h/m/out.js"))

    store = smap.Store({"http://h/m/": "dist/"})  # opens maps as they are named
    print(store.translate(log), store.broken)

    smap.script_link(b"//# sourceMappingURL=out.js.map")  # which map a script names

Over the C library libsmap by ctypes alone. The shared object is the one that the environment's SMAP_LIBRARY
names, or one beside this file, or the one that was installed with it, or the system's. Lines and columns
count from 0, but in traces from 1. Maps, scripts and stores may be used by all threads at once. Calls of one
map wait for one another; `share` gives a thread one of its own, which waits for no other.
"""

from ._library import Counts, Error, RefusedError, TraceCounts, version
from .builder import Builder
from .finders import Folders, Found, OutsideFolderError, RepeatedError
from .frames import code_point
from .links import alike, data_url, file_path, file_url, normal_form, resolve, script_link, script_name
from .links import script_url
from .logs import StoreCounts
from .maps import Map, Mapping, Source, respell, spell
from .store import Store
from .traces import Frame, Scripts, frame, named_scripts, translate

__all__ = ["Builder", "Counts", "Error", "Folders", "Found", "Frame", "Map", "Mapping", "OutsideFolder"]
__all__ += ["OutsideFolderError", "Refused", "RefusedError", "Repeated", "RepeatedError", "Scripts", "Source"]
__all__ += ["Store", "StoreCounts", "TraceCounts", "alike", "code_point", "data_url", "file_path", "file_url"]
__all__ += ["frame", "named_scripts", "normal_form", "resolve", "respell", "script_link", "script_name"]
__all__ += ["script_url", "spell", "translate", "version"]

# That of the package; `version` is the library's, which has three numbers alone.
__version__ = "0.3.0.dev0"

# The errors' names before 0.3.0.
Refused, Repeated, OutsideFolder = RefusedError, RepeatedError, OutsideFolderError
