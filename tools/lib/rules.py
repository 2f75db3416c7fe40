"""The rules file: the names of its classes are read from it, and a first one is written for the classes that a map was found to have."""
import json
from dataclasses import dataclass

from command import Failure
from topology import MOST, load_json

RATIO = 1024
# What marks the areas that import makes, in the member `made` of a geometry. Their classes are called so too, where no class of the source is.
SEA, SLIVER = "sea", "sliver"


def class_names(path):
    """The names of the classes, by number."""
    return [name for name, _ in class_weights(path)]


def class_weights(path):
    """The names of the classes with their weights."""
    try:
        return [[str(entry[0]), entry[1]] for entry in load_json(path)["classes"]]
    except (TypeError, KeyError, IndexError) as error:
        raise Failure(f"{path} is no rules file: its classes are not a list of names with weights") from error


def property_of(path):
    """The property that names the class of an area."""
    rules = load_json(path)
    name = rules.get("property") if isinstance(rules, dict) else None
    if not isinstance(name, str):
        raise Failure(f"{path} is no rules file: it names no property")
    return name


def free_name(name, taken):
    """The name, or one like it that is not taken, by whatever case it is written in."""
    taken = {other.casefold() for other in taken}
    while name.casefold() in taken:
        name += "_"
    return name


@dataclass
class Kind:
    """A class of a map: its name, whether it is one of made areas, and how many areas and faces it has."""
    name: str
    made: str = None
    areas: int = 0
    faces: int = 0


def rules_text(property_name, kinds):
    """Rules for these classes, to be edited: each suits itself best. The sea takes in what has no other neighbour; a sliver goes first, and nothing goes
    to it."""
    if len(kinds) > MOST["classes"]:
        raise Failure(f"the property {property_name!r} has {len(kinds):,} different values, and a map has at most {MOST['classes']} classes: "
                      "choose another --property, or put values together before")
    weight = 1000 if any(kind.made == SLIVER for kind in kinds) else 1
    rules = {
        "property": property_name,
        "classes": [[kind.name, 1 if kind.made == SLIVER else weight] for kind in kinds],
        "default": 0,
        "compat": [[compatibility(loser, winner) for winner in kinds] for loser in kinds],
        "ratio": RATIO,
        "counts": [kind.faces for kind in kinds],
    }
    lines = [f"{json.dumps(key)}: {spelled(key, value)}" for key, value in rules.items()]
    return "{" + ",\n ".join(lines) + "}\n"


def compatibility(loser, winner):
    if winner.made == SLIVER:
        return 0
    if loser is winner:
        return 100
    return 1 if winner.made == SEA and loser.made != SLIVER else 10


def spelled(key, value):
    """A table with one row a line."""
    if key not in ("compat", "classes"):
        return json.dumps(value, ensure_ascii=False)
    return "[" + (",\n " + " " * (len(key) + 5)).join(json.dumps(row, ensure_ascii=False) for row in value) + "]"
