"""cluster.py [OPTION].. --out FOLDER --map URL/=FOLDER/ .. LOG ..: translates logs on a cluster of Dask.

Each LOG is cut at line feeds into blocks, each block is translated by the store of the worker that takes it,
and the blocks of a log become one file of its name in FOLDER. So the result is what smap-trace writes for
each log, however many workers there are, even if some of them end in the middle: their blocks are translated
again. Workers need the module smap, and the logs, the maps and FOLDER under the same names.

    dask-scheduler &
    dask-worker localhost:8786 &
    python3 cluster.py --scheduler localhost:8786 --out translated --map https://h/m/=dist/ logs/*.log

Over dask.distributed, Debian's python3-distributed.
"""

import argparse
import contextlib
import io
import os
import shutil
import sys
import tempfile
import uuid
from pathlib import Path

import dask
from dask.bytes import read_bytes
from distributed import Client, WorkerPlugin, get_worker, progress

sys.path.insert(0, str(Path(__file__).resolve().parent.parent / "python"))
import smap  # noqa: E402


class HasStore(WorkerPlugin):
    """Gives each worker a store, which its threads share."""

    name = "smap-store"

    def __init__(self, places, cache_bytes):
        self.places, self.cache_bytes = places, cache_bytes

    def setup(self, worker):
        worker.smap_store = smap.Store(self.places, self.cache_bytes)


@contextlib.contextmanager
def written_whole(path, temp):
    """A file that is written elsewhere first, so that it is there whole or not at all.

    Who may read it is what the umask says, as for any new file.
    """
    made = os.path.join(temp, uuid.uuid4().hex)
    with open(made, "xb") as out:
        yield out
    os.replace(made, path)


@dask.delayed
def translate_block(block, part, temp):
    """Translates whole lines into a file. Returns the counts of the lines, and the faults of maps so far."""
    store = get_worker().smap_store
    with written_whole(part, temp) as out:
        counts = store.translate_file(io.BytesIO(block), out)
    return counts, {script: str(fault) for script, fault in store.broken.items()}


@dask.delayed
def join_blocks(told, parts, path, temp):
    """Puts the files of blocks together. Returns the sum of the counts, and all faults.

    The files of blocks stay until all is done: if the worker ends now, another one needs them.
    """
    with written_whole(path, temp) as out:
        for part in parts:
            with open(part, "rb") as block:
                shutil.copyfileobj(block, out)
    return added(told)


def added(told):
    """The sum of some counts, and all of some faults."""
    faults = {script: fault for _, some in told for script, fault in some.items()}
    return sum((counts for counts, _ in told), smap.StoreCounts()), faults


def shown(text):
    """A text for a terminal, which would take some characters as commands."""
    return "".join(char if char.isprintable() else ascii(char)[1:-1] for char in text)


def tasks(logs, out, temp, block):
    """For each log what translates it."""
    _, blocks, paths = read_bytes(logs, delimiter=b"\n", blocksize=block, sample=False, include_path=True)
    for log, path in zip(blocks, paths):
        name = Path(path).name
        parts = [f"{temp}/{name}.{number}" for number in range(len(log))]
        told = [translate_block(one, part, temp) for one, part in zip(log, parts)]
        yield join_blocks(told, parts, str(out / name), temp)


def translate(words, client):
    """Translates the logs, and shows how far it is."""
    logs = [os.path.abspath(log) for log in words.logs]
    with tempfile.TemporaryDirectory(dir=words.out, prefix=".blocks-") as temp:
        # a block is read by the task that translates it, so that blocks don't wait in memory
        with dask.config.set({"optimization.fuse.delayed": True}):
            futures = client.compute(list(tasks(logs, words.out, temp, words.block)))
        progress(futures)
        return added(client.gather(futures))


def main():
    layout = argparse.RawDescriptionHelpFormatter
    parser = argparse.ArgumentParser(description=__doc__, formatter_class=layout)
    parser.add_argument("logs", metavar="LOG", nargs="+")
    parser.add_argument("--map", metavar="URL/=FOLDER/", action="append", required=True, dest="maps")
    parser.add_argument("--out", type=Path, required=True, help="the folder for the results")
    parser.add_argument("--scheduler", help="its address; without one, workers are started on this machine")
    parser.add_argument("--scheduler-file", help="the file in which the scheduler wrote its address")
    parser.add_argument("--block", type=int, default=32 << 20, help="bytes of a log translated at once")
    parser.add_argument("--cache", type=int, default=1 << 30, help="bytes of maps that a worker keeps open")
    words = parser.parse_args()
    names = [Path(log).name for log in words.logs]
    if len(set(names)) < len(names):
        parser.error("two logs have one name, and so would their results")
    words.out = words.out.resolve()
    words.out.mkdir(parents=True, exist_ok=True)
    places = dict(word.rpartition("=")[::2] for word in words.maps)
    places = {url: os.path.abspath(folder) for url, folder in places.items()}

    with Client(words.scheduler, scheduler_file=words.scheduler_file) as client:
        client.register_worker_plugin(HasStore(places, words.cache))
        counts, faults = translate(words, client)
    print(f"\n{counts}")
    for script, fault in faults.items():
        print(shown(f"cluster: {script}: {fault}"), file=sys.stderr)
    sys.exit(1 if faults else 0)


if __name__ == "__main__":
    main()
