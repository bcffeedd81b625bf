"""cluster.py [MEGABYTES]: the example cluster.py with a scheduler and two workers as processes of this
machine, one of which is ended in the middle: all bytes are those of smap-trace.

The log has so many MB, 200 unless it is given, in 20 files. The program is smap-trace on the PATH, the
library that of SMAP_LIBRARY, and Python the one that runs this, which needs dask.distributed.
"""

import os
import random
import signal
import subprocess
import sys
import tempfile
import time
from pathlib import Path

TOP = Path(__file__).resolve().parent.parent.parent
MAP = b'{"version":3,"sources":["a.js"],"mappings":"AAUE,IAEA"}'
FILES = 20
LONG = b"x" * 3_000_000 + b"\n"

# For how many seconds the example may do nothing that is seen.
PATIENCE = 900


def pieces(random_numbers):
    """Pieces of a log, of whole lines: frames of 30 scripts, of which 25 have a map and one a broken map."""
    for _ in range(40):
        lines = []
        while len(lines) < 1000:
            script = f"http://h/m/{random_numbers.randrange(30)}.js"
            place = f"{script}:1:{random_numbers.randrange(1, 9)}"
            lines += [f"Error: {random_numbers.random()}\n", f"    at f ({place})\r\n", f"@{place}\n"]
        yield "".join(lines).encode()


def write_inputs(temp, megabytes):
    """The maps and the logs; how many lines these have."""
    for number in range(26):
        text = MAP if number < 25 else b"{}"
        (temp / "dist" / f"{number}.js.map").write_bytes(text)
    random_numbers = random.Random(1)
    some = list(pieces(random_numbers))
    lines = 0
    for number in range(FILES):
        path = temp / "logs" / f"{number}.log"
        with open(path, "wb") as out:
            while number and out.tell() < megabytes * 1_000_000 // (FILES - 1):
                out.write(LONG if random_numbers.random() < 0.002 else random_numbers.choice(some))
            if number % 3 == 1:
                out.write(b"@http://h/m/1.js:1:5")  # the last line has no line feed
        data = path.read_bytes()
        lines += data.count(b"\n") + (number % 3 == 1)
    return lines


def started(temp, name, *words):
    """A program of dask.distributed, in a group of processes of its own."""
    with open(temp / f"{name}.said", "wb") as said:
        return subprocess.Popen(
            [sys.executable, "-B", "-m", f"distributed.cli.dask_{name.rstrip('12')}", *words],
            stdout=said, stderr=said, cwd=temp, start_new_session=True, umask=0o027,
            env={**os.environ, "PYTHONPATH": str(TOP / "capi" / "python")},
        )


def begin_cluster(temp):
    file = temp / "scheduler.json"
    words = ["--no-dashboard", "--scheduler-file", str(file)]
    yield started(temp, "scheduler", "--host", "127.0.0.1", "--port", "0", *words)
    for _ in range(600):
        if file.exists() and file.stat().st_size:
            break
        time.sleep(0.1)
    for name in ("worker1", "worker2"):
        own = ["--no-nanny", "--nthreads", "1", "--name", name, "--local-directory", str(temp / name)]
        yield started(temp, name, *own, *words)


def run_example(temp):
    words = ["--scheduler-file", "scheduler.json", "--out", "out", "--map", "http://h/m/=dist"]
    words += ["--block", "1000000"]
    logs = sorted(str(path) for path in (temp / "logs").iterdir())
    return subprocess.Popen(
        [sys.executable, "-B", str(TOP / "capi" / "examples" / "cluster.py"), *words, *logs],
        stdout=subprocess.PIPE, stderr=subprocess.PIPE, text=True, cwd=temp,
    )


def end_worker_in_the_middle(temp, worker, running):
    """Ends a worker once a file is done. Says how many were done; fails if none was for a long time."""
    deadline = time.time() + PATIENCE
    while running.poll() is None and time.time() < deadline:
        done = len(list((temp / "out").glob("*.log")))
        if done:
            os.kill(worker.pid, signal.SIGKILL)
            return done
        time.sleep(0.01)
    ended = running.poll()
    running.kill()
    sys.exit(f"no file was done: {'too slow' if ended is None else ended} {running.communicate()}")


def differing(temp):
    """The logs whose result isn't what smap-trace writes."""
    for path in sorted((temp / "logs").iterdir()):
        with open(path, "rb") as log, open(temp / "wanted", "wb") as wanted:
            words = ["smap-trace", "--skip-broken", f"http://h/m/={temp / 'dist'}/"]
            subprocess.run(words, stdin=log, stdout=wanted, stderr=subprocess.DEVNULL, check=True)
        if (temp / "wanted").read_bytes() != (temp / "out" / path.name).read_bytes():
            yield path.name


def check(temp, lines):
    processes = []
    try:
        for process in begin_cluster(temp):
            processes.append(process)
        running = run_example(temp)
        processes.append(running)
        done = end_worker_in_the_middle(temp, processes[1], running)
        told, said = running.communicate(timeout=PATIENCE)
    finally:
        for process in processes:
            process.kill()
            process.wait()
    problems = [f"{name} differs" for name in differing(temp)]
    if done >= FILES:
        problems.append("all was done before the worker ended")
    if running.returncode != 1 or "cluster: http://h/m/25.js: version" not in said:
        problems.append(f"the broken map isn't told of: {running.returncode} {said[-2000:]}")
    if f"StoreCounts(lines={lines}, " not in told:
        problems.append(f"not {lines} lines: {told[-300:]}")
    results = list((temp / "out").iterdir())
    if len(results) != FILES:
        problems.append("there are other files than the results")
    if {path.stat().st_mode & 0o777 for path in results} != {0o640}:
        problems.append("the results don't have the permissions of the workers' umask")
    return done, problems


def main():
    # so that what was started ends, and what was written goes, with this
    signal.signal(signal.SIGTERM, lambda *_: sys.exit("ended from outside"))
    megabytes = int(sys.argv[1]) if len(sys.argv) > 1 else 200
    with tempfile.TemporaryDirectory() as folder:
        temp = Path(folder)
        for name in ("dist", "logs", "out"):
            (temp / name).mkdir()
        lines = write_inputs(temp, megabytes)
        start = time.time()
        done, problems = check(temp, lines)
        seconds = time.time() - start
        print(f"{lines} lines, {seconds:.1f} s with smap-trace; a worker ended after {done} of {FILES} files")
        sys.exit("\n".join(problems) or 0)


main()
