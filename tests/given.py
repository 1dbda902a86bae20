"""What is in tests/data, for the other scripts here; it came from elsewhere. And how a script ends that was asked to check."""
import pathlib, sys

FOLDER = pathlib.Path(__file__).parent

def table(name):
    return [line.split('\t') for line in stored(name).decode().splitlines()]

def stored(name):
    return (FOLDER / 'data' / name).read_bytes()

def end_check(found, fine):
    """With what was found, or with a word that all is fine."""
    found = list(found)
    print('\n'.join(found) or fine)
    sys.exit(1 if found else 0)
