"""The commands that tools/measure and others run, and how they show what they found."""
import os
import shutil
import subprocess
import sys

from program import TOP

# valgrind counts byte by byte what a processor clears in one instruction; so it clears by several
PLAIN_CLEARS = {"GLIBC_TUNABLES": "glibc.cpu.x86_rep_stosb_threshold=1000000000"}


def stop(text):
    """Ends the tool that runs, and says why."""
    sys.exit(f"tools/{os.path.basename(sys.argv[0])}: {text}")


def need(command):
    """Ends the run where a command is not there."""
    if shutil.which(command) is None:
        stop(f"{command} is not on the path")


def run(words, **options):
    """What a command printed, on both streams; it has to end well."""
    done = subprocess.run(words, stdout=subprocess.PIPE, stderr=subprocess.STDOUT, text=True, **options)
    if done.returncode != 0:
        stop(f"{' '.join(words)} ended with {done.returncode}:\n{done.stdout[-2000:]}")
    return done.stdout


def compiled(source, room, *libraries):
    """A program in C, a file of tools, built there."""
    need("cc")
    program = os.path.join(room, os.path.basename(source).removesuffix(".c"))
    run(["cc", "-O2", "-o", program, os.path.join(TOP, "tools", source), *libraries])
    return program


def preloadable(source, room):
    """A library in C to preload, a file of tools, built there."""
    need("cc")
    library = os.path.join(room, os.path.basename(source).removesuffix(".c") + ".so")
    run(["cc", "-O2", "-shared", "-fPIC", "-o", library, os.path.join(TOP, "tools", source), "-ldl"])
    return library


def show(head, rows):
    print(f"| {' | '.join(head)} |\n|{'---|' * len(head)}")
    for row in rows:
        print(f"| {' | '.join(f'{it:,}' if isinstance(it, int) else it for it in row)} |")
    print()
