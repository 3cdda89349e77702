"""The crates of crates.txt and what they rest on, for check-docs and crates-diagram."""
import os

TOP = os.path.dirname(os.path.dirname(os.path.abspath(__file__)))


def crates():
    """Each crate with the crates of this repository that it uses; the toolchain's own libraries are left out."""
    uses = {}
    with open(f'{TOP}/crates.txt', encoding='utf-8') as file:
        for line in file:
            name, colon, rest = line.split('#')[0].partition(':')
            if colon:
                uses[name.split()[0]] = rest.split()  # after the name may stand `staticlib`
    return {name: [d for d in deps if d in uses] for name, deps in uses.items()}


def below(name, uses):
    """All that a crate rests on."""
    found = set()
    for dep in uses[name]:
        found |= {dep} | below(dep, uses)
    return found
