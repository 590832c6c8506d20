"""What crates.txt says: each crate of the repository, and the libraries that it stands on."""
import pathlib

ROOT = pathlib.Path(__file__).resolve().parents[2]


def rows():
    """By crate its line, without a comment."""
    with open(ROOT / "crates.txt", encoding="utf-8") as file:
        lines = [line.partition("#")[0].strip() for line in file]
    return {line.partition(":")[0].split()[0]: line for line in lines if line}


def libraries():
    """By crate the libraries that its line names, those of the kit too."""
    return {name: row.partition(":")[2].split() for name, row in rows().items()}


def crates():
    """By crate the crates that its line names."""
    named = libraries()
    return {name: [it for it in words if it in named] for name, words in named.items()}


def below():
    """By crate all crates that it uses, directly or not, each after its own."""
    direct = crates()

    def reached(name, found):
        for it in direct[name]:
            if it not in found:
                reached(it, found)
                found.append(it)
        return found

    return {name: reached(name, []) for name in direct}
