"""How the scripts here are called: with the name of what they print."""
import sys


def named(call, names, endings=([],)):
    """The name that the script is called with, and the words behind it.

    The name must be one of those given, and the words one of the endings. Else the script ends with a line that says
    how to call it.
    """
    name, *words = sys.argv[1:] or ['']
    if name not in names or words not in endings:
        sys.stderr.write(f'usage: {call}, where NAME is one of {", ".join(names)}\n')
        sys.exit(2)
    return name, words
