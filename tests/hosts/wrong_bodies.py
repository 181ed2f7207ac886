"""Makes copies of the hosts that are wrong: a wrong body of a function, or overruns in a host.

python3 wrong_bodies.py list                        the file and the function of each wrong body
python3 wrong_bodies.py make FUNCTION HOSTS FOLDER  copies the folder HOSTS, with a wrong body of this function
python3 wrong_bodies.py overruns HOST               the functions in which overruns of a host must be found
python3 wrong_bodies.py overrun HOST HOSTS FOLDER   copies the folder HOSTS, with all overruns of a host
"""

import pathlib
import shutil
import sys

Entry = tuple[list[str], str, str]


def entries(name: str) -> list[Entry]:
    """The words of each entry of a file, a line of the sources, and what replaces it."""
    read = []
    for block in pathlib.Path(__file__).with_name(name).read_text().split("\n\n")[1:]:
        head, old, new = block.strip("\n").split("\n")
        if old[0] != "-" or new[0] != "+":
            raise ValueError(f"this entry changes no line: {block}")
        read.append((head.split(), old[1:] + "\n", new[1:] + "\n"))
    return read


def change(folder: str, file: str, old: str, new: str) -> None:
    """Replaces a line that occurs once in a file."""
    path = pathlib.Path(folder) / file
    text = path.read_text()
    if text.count(old) != 1:
        raise ValueError(f"{file} does not contain this line once: {old}")
    path.write_text(text.replace(old, new))


def main(way: str, *rest: str) -> None:
    """Does what one of the lines above says."""
    if way == "list":
        for (file, function), _, _ in entries("wrong_bodies"):
            print(file, function)
    elif way == "overruns":
        for (host, _, function), _, _ in entries("overruns"):
            if host == rest[0]:
                print(function)
    else:
        shutil.copytree(*rest[1:])
        for words, old, new in entries("wrong_bodies" if way == "make" else "overruns"):
            if rest[0] == words[1 if way == "make" else 0]:
                change(rest[2], words[-2], old, new)


if __name__ == "__main__":
    main(*sys.argv[1:])
