"""What is told of the faces of a slice: the area from which each grew, the areas of which it is made, and sums of their attributes."""
from dataclasses import dataclass, field

from command import Failure
from rules import free_name

# The columns of a face itself, beside that of its class.
OWN = ("face", "area", "name", "names", "made", "sources")
# The option, what it makes of pairs of a value and a share, and whether the answer is a whole number where all values are.
SUMMED = {"sum": lambda pairs: sum(value * share for value, share, _ in pairs), "mean": lambda pairs: mean(pairs),
          "least": lambda pairs: min(value for value, _, _ in pairs), "greatest": lambda pairs: max(value for value, _, _ in pairs)}


@dataclass
class Face:
    """A face of a slice as it is told to others: `sources` are the areas that it is made of, and `origin` the one from which it grew."""
    number: int
    kind: object
    size: float
    origin: object
    sources: list
    summed: dict
    cells: list = field(default_factory=list)


def mean(pairs):
    """The mean by area."""
    whole = sum(size for _, _, size in pairs)
    return sum(value * size for value, _, size in pairs) / whole if whole else None


def summed(kind, pairs):
    """A sum, mean, least or greatest of the values that there are; a whole number stays one."""
    pairs = [(value, share, size) for value, share, size in pairs if value is not None]
    if not pairs:
        return None
    if kind == "sum" and all(isinstance(value, int) and share == 1 for value, share, _ in pairs):
        return sum(value for value, _, _ in pairs)
    return SUMMED[kind](pairs)


class Teller:
    """Tells of each face what its map knows of it. `areas` are those of the faces of the map itself, in grid units."""

    def __init__(self, known, areas, made, chosen):
        self.known, self.areas, self.made, self.chosen = known, areas, made, chosen
        self.whole = {}
        for face, place in enumerate(known.faces, 1):
            self.whole[place] = self.whole.get(place, 0) + areas[face]
        for kind in SUMMED:
            for name in getattr(chosen, kind):
                self.check(name, kind, ("integer", "number"))
        self.fields = list(known.fields) if chosen.fields == ["all"] else chosen.fields
        for name in self.fields:
            self.check(name, "fields", None)

    def check(self, name, option, kinds):
        found = self.known.fields.get(name)
        if found is None or (kinds and found not in kinds):
            numbers = [each for each, kind in self.known.fields.items() if kinds is None or kind in kinds]
            raise Failure(f"the metadata have no {'number' if kinds else 'attribute'} {name!r} for --{option}; there is {', '.join(numbers) or 'none'}")

    def of_face(self, number):
        """The area from which a face grew, those of which it is made, and what was asked for of their attributes."""
        parts = self.made[number]
        sizes = {}
        for part in parts:
            place = self.known.faces[part - 1]
            sizes[place] = sizes.get(place, 0) + self.areas[part]
        owned = {place: size for place, size in sorted(sizes.items()) if not self.known.sources[place].made}
        values = {}
        for kind in SUMMED:
            for name in getattr(self.chosen, kind):
                pairs = [(self.known.sources[place].attributes.get(name), self.share(place, size), size) for place, size in owned.items()]
                values[f"{kind}_{name}"] = summed(kind, pairs)
        return self.known.source(parts[0]), [self.known.sources[place] for place in owned], values

    def share(self, place, size):
        """Which part of an area lies in a face: all of it, where it has no other parts."""
        whole = self.whole[place]
        return 1 if size == whole or not whole else size / whole


def columns_of(property_name, face, fields):
    """The columns of a face by their names. Its own come first, and one of the source that is called like one before it gets another name."""
    own = {"face": face.number, property_name: face.kind, "area": face.size, "name": face.origin.name, "names": [it.name for it in face.sources if it.name],
           "made": face.origin.made, "sources": [it.id for it in face.sources]}
    for name, value in [*face.summed.items(), *((name, face.origin.attributes.get(name)) for name in fields)]:
        own[free_name(name, own)] = value
    return own
