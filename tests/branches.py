"""Counts the branches of a function, with those of every function it calls, each as often as it is called.

usage: python3 tests/branches.py FUNCTION MOST [CALLED ..]

Run in the function's crate. Reads the compiler's own form of the source, before anything is optimised, which `rt check --generated` writes: of
FUNCTION, of what it calls, and so on. There an `if`, an `&&` and an `||` are a `cond` each, a `match` is a `switch`, or a `cond` or two for each range,
and a `while` or `for` is a `loop` with a `cond`. FUNCTION is a path below the crate. More than MOST branches are a failure, and so is a call that
cannot be followed. Functions that are known to be called can be named, which saves time: each that is found later costs a look of its own.
"""
import pathlib
import re
import subprocess
import sys
import tempfile


def forms(crate, names, folder):
    """The compiler's form of each of these functions of the crate, by name."""
    starts = [word for name in names for word in ('--start', name)]
    ran = subprocess.run(['rt', 'check', '--generated', folder, *starts], capture_output=True, text=True)
    found = {}
    for name in names:
        file = pathlib.Path(folder, f'Rattle-{crate}-proofs', *name.split('::'), 'Code', 'Mir.antt')
        if not file.is_file():
            sys.exit(f'{ran.stdout}{ran.stderr}{name}: there is no such function')
        found[name] = file.read_text()
    return found


def called(crate, name, text):
    """The functions that this one calls, each as often as it does."""
    modules = {}
    for module, short in re.findall(r'^use (\S+)\.Symbol(?: as (\S+))?$', text, re.M):
        modules[short or 'Symbol'] = module
    within, found = f'Rattle.{crate}.proofs.', []
    for callee in re.findall(r'Syntax\.call\w*\s+(\S+)', text):
        module = modules.get(callee.removesuffix('.name'), '')
        if not callee.endswith('.name') or not module.startswith(within):
            sys.exit(f'{name} has a call that is not by name, or leads out of the crate: {callee}')
        found.append(module.removeprefix(within).replace('.', '::'))
    return found


def count(crate, bodies, name, above=()):
    """The branches of a function, in it and in all that it calls."""
    if name in above:
        sys.exit(f'{name} calls itself: its branches cannot be counted')
    own = len(re.findall(r'Syntax\.(?:cond|switch|loop)\b', bodies[name]))
    print(f'    {"    " * len(above)}{name}: {own}')
    return own + sum(count(crate, bodies, callee, (*above, name)) for callee in called(crate, name, bodies[name]))


def main():
    name, most = sys.argv[1], int(sys.argv[2])
    crate, bodies, wanted = pathlib.Path.cwd().name, {}, {name, *sys.argv[3:]}
    with tempfile.TemporaryDirectory() as folder:
        while wanted:
            bodies.update(forms(crate, sorted(wanted), folder))
            wanted = {callee for it in wanted for callee in called(crate, it, bodies[it])} - bodies.keys()
    total = count(crate, bodies, name)
    print(f'{name}: {total} branches, at most {most}')
    sys.exit(total > most)


main()
