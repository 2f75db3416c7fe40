"""Which classes of a map no rule names: their areas count as the default class, and the program says nothing of it.

It wants nothing but Python's own library, since the launcher asks it too: unnamed MAP OBJECT RULES."""
import sys
from collections import Counter

from command import Failure, counted
from topology import chosen_object, load_document, load_json, polygons_of, walk

SHOWN = 5


def class_text(value):
    """The name of a class as the program reads a property: a text, or a whole number by its decimals; nothing else names one."""
    if isinstance(value, str):
        return value
    return str(value) if isinstance(value, int) and not isinstance(value, bool) and -2 ** 63 <= value < 2 ** 64 else None


def spelled(value):
    """A property that names no class, as its owner would call it."""
    return "without the property" if value is None else repr(value)


def areas_by_value(document, path, name, property_name):
    """How many areas have each value of the property. A value may be of any kind, so the pairs of value and count are in a list."""
    counts, values = Counter(), {}
    for geometry in walk(chosen_object(document, path, name)):
        if any(polygons_of(geometry)):
            properties = geometry.get("properties")
            value = properties.get(property_name) if isinstance(properties, dict) else None
            counts[repr(value)] += 1
            values[repr(value)] = value
    return [(values[key], count) for key, count in counts.most_common()]


def told_of(path, name, rules_path):
    """A line for the classes of a map that no rule names, or none."""
    rules = load_json(rules_path)
    try:
        property_name, default = rules["property"], rules["default"]
        known = [entry[0] for entry in rules["classes"]]
        names, default_name = set(known), known[default]
    except (TypeError, KeyError, IndexError) as error:
        raise Failure(f"{rules_path} is no rules file") from error
    strange = [(value, count) for value, count in areas_by_value(load_document(path), path, name, property_name) if class_text(value) not in names]
    if not strange:
        return []
    listed = ", ".join(f"{spelled(value)} ({count:,})" for value, count in strange[:SHOWN])
    more = f" and {counted(len(strange) - SHOWN, 'value')} more" if len(strange) > SHOWN else ""
    total = sum(count for _, count in strange)
    return [f"{counted(total, 'area counts', 'areas count')} as {default_name!r}, the default of {rules_path}, which names no class for what their "
            f"{property_name!r} is: {listed}{more}"]


if __name__ == "__main__":
    print("\n".join(told_of(*sys.argv[1:])))
