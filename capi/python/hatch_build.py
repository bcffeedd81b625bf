"""What an sdist and a wheel have besides the module: a man page, and the library, if there is one to put in."""

import os
import sysconfig
from pathlib import Path

from hatchling.builders.hooks.plugin.interface import BuildHookInterface

PAGE = "smap-events.1"


class LibraryHook(BuildHookInterface):
    """Puts the file that SMAP_WHEEL_LIBRARY names into the wheel, beside the module.

    The wheel is then for the platforms of SMAP_WHEEL_PLATFORM, such as
    manylinux_2_5_x86_64.musllinux_1_1_x86_64, or for this one.
    Without the variable it has the module alone, for any platform, which loads the system's library.
    """

    def initialize(self, version, build_data):
        root, included = Path(self.root), build_data["force_include"]
        page = next(filter(Path.exists, [root / PAGE, root.parent.parent / "packaging" / "man" / PAGE]))
        if self.target_name == "sdist":
            included[str(page)] = PAGE
            return
        included[str(page)] = f"smap-{self.metadata.version}.data/data/share/man/man1/{PAGE}"
        library = os.environ.get("SMAP_WHEEL_LIBRARY")
        if library:
            included[os.path.abspath(library)] = "smap/libsmap.so.0"
            this = sysconfig.get_platform().replace("-", "_").replace(".", "_")
            build_data["pure_python"] = False
            build_data["tag"] = f"py3-none-{os.environ.get('SMAP_WHEEL_PLATFORM') or this}"
