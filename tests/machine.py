"""The machine: where rt leaves what it builds, how to build a C test with the kit's own compiler, and how to run a program.

Programs and the library are for x86-64 Linux, and so are these tests.
"""
import functools
import pathlib
import subprocess

ROOT = pathlib.Path(__file__).resolve().parent.parent
LIBRARY = ROOT / 'target' / 'staticlib' / 'libnevelknop.a'
TARGET = 'x86_64-unknown-linux-gnu'
LIMIT = 120  # seconds after which a program counts as hanging
Hangs = subprocess.TimeoutExpired


@functools.cache
def kit():
    """The kit's folder."""
    guide = subprocess.run(['rt', 'doc'], check=True, capture_output=True, text=True).stdout.strip()
    return pathlib.Path(guide).parent


def program(name):
    """The program of crate NAME as rt builds it."""
    return ROOT / 'crates' / name / 'out' / name


def run(program, data=b''):
    """What a program writes for this input: it must end well, in time, and complain of nothing."""
    done = subprocess.run([program], input=data, capture_output=True, timeout=LIMIT)
    if done.returncode or done.stderr:
        raise RuntimeError(f'{program} ended with {done.returncode}: {done.stdout[-500:]!r} {done.stderr[-500:]!r}')
    return done.stdout


def tool(words):
    """Run a build tool, which is heard only where it fails."""
    done = subprocess.run(words, capture_output=True, text=True)
    if done.returncode:
        raise RuntimeError(f'{words[0]} ended with {done.returncode}:\n{done.stdout}{done.stderr}')


def compile_c(source, *words):
    """Run the kit's clang on a C source: our headers and its own freestanding ones, every warning an error."""
    clang = [kit() / 'toolchain' / 'bin' / 'clang', f'--target={TARGET}', '-O2', '-fPIE', '-ffreestanding', '-nostdinc']
    clang += ['-Wall', '-Wextra', '-Wpedantic', '-Werror', '-isystem', ROOT / 'tests' / 'freestanding', '-I', ROOT / 'include']
    tool([*clang, *words, source])


def build(name, library):
    """Compile tests/NAME.c and link it with the library; the program."""
    folder = ROOT / 'target' / 'tests'
    folder.mkdir(parents=True, exist_ok=True)
    made, program = folder / f'{name}.o', folder / name
    compile_c(ROOT / 'tests' / f'{name}.c', '-std=c11', '-c', '-o', made)
    link = [kit() / 'bin' / 'rattle-link', '--target', TARGET, '--toolchain', kit() / 'toolchain']
    tool([*link, '-o', program, made, library])
    return program
