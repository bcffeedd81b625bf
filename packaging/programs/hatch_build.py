"""What the wheel has besides the Python module: the program, its man pages, and the template of a page."""

import os

from hatchling.builders.hooks.plugin.interface import BuildHookInterface

PAGES = ("smap.1", "smap-trace.1", "smap-maps.1", "smap-view.1")


class ProgramHook(BuildHookInterface):
    """Puts the program that SMAP_WHEEL_PROGRAM names into the wheel, the template that SMAP_WHEEL_TEMPLATE names
    beside it, where smap-view looks for it, and pages of SMAP_WHEEL_PAGES, a folder.

    The wheel is for the platforms of SMAP_WHEEL_PLATFORM, such as manylinux_2_17_x86_64.musllinux_1_1_x86_64.
    """

    def initialize(self, version, build_data):
        included = build_data["force_include"]
        included[os.environ["SMAP_WHEEL_PROGRAM"]] = "smap_programs/smap"
        included[os.environ["SMAP_WHEEL_TEMPLATE"]] = "smap_programs/smap-view.html"
        shared = f"smap_programs-{self.metadata.version}.data/data/share/man/man1"
        for page in PAGES:
            included[os.path.join(os.environ["SMAP_WHEEL_PAGES"], page)] = f"{shared}/{page}"
        build_data["pure_python"] = False
        build_data["tag"] = f"py3-none-{os.environ['SMAP_WHEEL_PLATFORM']}"
