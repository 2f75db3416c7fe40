"""What the page has to know beside the map, as JSON: its title, the names of its classes, and how grid units become those of the source.
usage: settings.py MAP [OBJECT RULES]

The title is the member `title` of the rules file, and `attribution` tells where the map comes from; the program passes over both. Without a title the name of the file stands
in its place. A listing has no names."""
import json
import pathlib
import sys


def of_listing(path):
    with open(path, encoding="ascii", errors="replace") as file:
        file.readline()
        words = file.readline().split()
    numbers = [int(word) for word in words[1:5]]
    return {"scale": numbers[:2], "translate": numbers[2:], "classes": []}


def of_topology(path, rules):
    transform = json.loads(path.read_text(encoding="utf-8")).get("transform") or {}
    names = [name for name, _ in rules["classes"]]
    return {"scale": transform.get("scale", [1, 1]), "translate": transform.get("translate", [0, 0]), "classes": names}


def main(words):
    path = pathlib.Path(words[0])
    rules = json.loads(pathlib.Path(words[2]).read_text(encoding="utf-8")) if len(words) == 3 else {}
    settings = of_topology(path, rules) if rules else of_listing(path)
    title, attribution = (rules.get(member) for member in ("title", "attribution"))
    settings["title"] = title if isinstance(title, str) else path.stem
    settings["attribution"] = attribution if isinstance(attribution, str) else ""
    print(json.dumps(settings))


if __name__ == "__main__":
    main(sys.argv[1:])
