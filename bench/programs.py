"""The programs that the benches time, and a run of one with its words."""
import os
import shutil
import subprocess
import sys
import tempfile
import time

HERE = os.path.dirname(os.path.abspath(__file__))


def program(name):
    """Returns the path of a program of the repository, which is proved and built where it isn't yet."""
    folder = os.path.join(HERE, "..", "crates", name)
    path = os.path.join(folder, "out", name)
    if not os.path.exists(path):
        print(f"{name}: proving and building the program, which can take long", file=sys.stderr)
        subprocess.run(["rt", "run"], cwd=folder, stdin=subprocess.DEVNULL, stdout=subprocess.DEVNULL, stderr=subprocess.DEVNULL)
    if not os.path.exists(path):
        sys.exit(f"{name}: the build failed; 'rt run' in crates/{name} says why")
    return path


def codac_cli():
    """Returns the path of the program that the command line names, else of the proved codac_cli."""
    return sys.argv[1] if len(sys.argv) > 1 else proved()


def proved():
    """Returns the path of the proved codac_cli."""
    found = subprocess.run([os.path.join(HERE, "..", "bin", "prove"), "--path"], stdout=subprocess.PIPE, text=True)
    if found.returncode:
        sys.exit("no current proved program is there: run bin/prove first")
    return found.stdout.strip()


def measured(*words, log=None, wanted=0):
    """Returns what one run prints, its seconds and its peak of memory in bytes; it has to end with the wanted status.

    The peak is what the command `time` tells, where it is installed; else it is never below that of the script that starts the program.
    """
    timer = shutil.which("time")
    with tempfile.NamedTemporaryFile() as peak, open(log or os.devnull, "rb") as source:
        words = [str(word) for word in words]
        began = time.perf_counter()
        job = subprocess.Popen(([timer, "-q", "-f", "%M", "-o", peak.name] if timer else []) + words, stdin=source, stdout=subprocess.PIPE)
        printed = job.stdout.read()
        _, status, used = os.wait4(job.pid, 0)
        seconds = time.perf_counter() - began
        memory = int(peak.read()) if timer else used.ru_maxrss
    if os.waitstatus_to_exitcode(status) != wanted:
        sys.exit(f"{' '.join(words)} ended with status {os.waitstatus_to_exitcode(status)}: {printed[:100]!r}")
    return printed.decode().strip(), seconds, memory * 1024


def least(path, *words, turns=5, log=None):
    """Returns what a program prints, the least time of some runs and the peak of memory."""
    runs = [measured(path, *words, log=log) for _ in range(turns)]
    return runs[0][0], min(seconds for _, seconds, _ in runs), max(memory for _, _, memory in runs)
