"""Lines of scripts, made from shows: for the scripts that make cases."""

def case(name, *lines):
    return ['case ' + name, *lines]

def shown(memory):
    return 'memory ' + memory.text()
