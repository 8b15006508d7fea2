"""Writes what calls are measured with to a folder: lists.py FOLDER. These are 10,000 tags for each line of lists.txt, chosen by numbers that look
random and are the same in every run, and the tags of sites: those of tags.txt, and more for larger sites; 40 tags that the registry replaces
as a whole; and 40 languages of three letters. In `shapes`, `a` means any lowercase
letter, `A` any uppercase letter, `0` any digit, and any other character itself."""
import pathlib
import re
import string
import sys

HERE = pathlib.Path(__file__).resolve().parent
CLASSES = {"a": string.ascii_lowercase, "A": string.ascii_uppercase, "0": string.digits}


def numbers():
    """Yields numbers, whose remainders choose."""
    state = 1
    while True:
        state = (state * 6364136223846793005 + 1442695040888963407) % 2**64
        yield state >> 33


def tags(shapes, is_varied):
    """Returns 10,000 tags of some shapes."""
    number = numbers()

    def one(of):
        return of[next(number) % len(of)]
    return ["".join(one(CLASSES[it]) if is_varied and it in CLASSES else it for it in one(shapes)) for _ in range(10_000)]


def main(folder):
    for line in (HERE / "lists.txt").read_text(encoding="utf-8").splitlines():
        name, _, shapes = line.partition(": ")
        (folder / f"{name}.txt").write_text("\n".join(tags(shapes.split(), name == "shapes")) + "\n", encoding="utf-8")
    more = [f"{language}-{first}{second}" for first in CLASSES["A"] for second in CLASSES["A"] for language in "en de fr es pt it nl sv ar zh".split()]
    registry, names = ((HERE.parent / "data" / path).read_text(encoding="utf-8") for path in ("registry/language-subtag-registry", "names/cldr/autonyms.txt"))
    sites = {str(count): [*(HERE / "tags.txt").read_text(encoding="utf-8").split(), *more][:count] for count in (40, 100, 1000)}
    sites["replaced"] = re.findall(r"^Tag: (\S+)$(?:\n(?!%%).*)*\nPreferred-Value", registry, re.M)[:40]
    sites["three-letters"] = re.findall(r"^([a-z]{3}) ", names, re.M)[:40]
    for name, offered in sites.items():
        (folder / f"site-{name}.txt").write_text("\n".join(offered) + "\n", encoding="utf-8")


if __name__ == "__main__":
    main(pathlib.Path(sys.argv[1]))
