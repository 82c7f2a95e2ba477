"""Files that a program here writes and the repository keeps."""
import sys


def settle(folder, made, strays=()):
    """Writes the files, name to octets, and removes the strays; or, where the program's one word is `--check`, says which file
    isn't as it is made, and which is a stray. The status that the program ends with."""
    if sys.argv[1:] not in ([], ["--check"]):
        print(f"{sys.argv[0]} takes no word but --check", file=sys.stderr)
        return 2
    if not sys.argv[1:]:
        for file in strays:
            file.unlink()
        for name, octets in made.items():
            (folder / name).write_bytes(octets)
        return 0
    others = [name for name, octets in made.items() if not (folder / name).exists() or (folder / name).read_bytes() != octets]
    for name in [*others, *(file.name for file in strays)]:
        print(f"{folder.name}/{name} isn't what {sys.argv[0]} makes")
    print(f"{folder.name}: {len(made)} files, {len(others)} of which are made otherwise, and {len(strays)} that aren't made")
    return 1 if others or strays else 0
