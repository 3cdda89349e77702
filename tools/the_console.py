"""Runs the proved console (crates/console/out/console, or the program that CONSOLE names) for the tools beside it, and
says what its lines mean."""
import os
import subprocess
import sys

from plain_register import REFUSALS

TOP = os.path.dirname(os.path.dirname(os.path.abspath(__file__)))


def console(data):
    """What the console prints for these bytes; and its lines, without the first, the names line."""
    program = os.environ.get('CONSOLE') or f'{TOP}/crates/console/out/console'
    if not os.path.exists(program):
        sys.exit(f'{program} is not there: `rt run < stdin` in {TOP}/crates/console makes it')
    ran = subprocess.run([program], input=data, capture_output=True, check=True)
    return ran.stdout, ran.stdout.decode('ascii').split('\n')[1:-1]


def in_words(line):
    """A line of the console's output as a sentence."""
    second, kind, first, other = line.split(',')
    if kind == 'row':
        return f'at {second}: tag {first} stood, {other} kN'
    if kind == 'sum':
        return f'at {second}: {counted(int(first), "condition")} in all, from {counted(int(other), "block")}'
    if kind == 'no':
        return f'at {second}: turned away, {REFUSALS[int(first)]} (refusal {first})'
    return f'line {first} of the input is bad or missing'


def counted(n, what):
    return f'{n} {what}' if n == 1 else f'{n} {what}s'
