"""How the commands of the kit begin and end."""
import sys


def run(main, help_text, least, most):
    """Calls a command with its words, and ends with what it answers: 2 where there are too few words or too many, and
    one line where a file or a value is at fault."""
    words = sys.argv[1:]
    if words[:1] in (["-h"], ["--help"]):
        print(help_text)
        sys.exit(0)
    if not least <= len(words) <= most:
        print(help_text, file=sys.stderr)
        sys.exit(2)
    try:
        sys.exit(main(*words))
    except (OSError, ValueError) as fault:
        sys.exit(f"{fault}")
