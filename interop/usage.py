"""The words of a program here, or its usage."""
import sys


def words_or_usage(said):
    """The words behind the program's name. Where there are none, or `--help`, what the program says of itself, and the end."""
    words = sys.argv[1:]
    if words and not words[0].startswith("-"):
        return words
    is_asked = words[:1] in (["--help"], ["-h"])
    print(said.strip(), file=sys.stdout if is_asked else sys.stderr)
    sys.exit(0 if is_asked else 2)
