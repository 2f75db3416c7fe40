"""The metadata of an archive: those of its map with the areas column by column, so that values of one kind stand side by side and pack well
(docs/formats.md, "The metadata of an archive")."""
import itertools
import json

# Whole numbers below this differ by one that a web page knows exactly.
LIMIT = 2**52


def compact(value):
    """A value as JSON without a space. ValueError for numbers that JSON has not."""
    try:
        return json.dumps(value, ensure_ascii=False, allow_nan=False, separators=(",", ":")).encode()
    except UnicodeEncodeError:
        # A half of a pair of UTF-16 has an escape, and no bytes of its own.
        return json.dumps(value, allow_nan=False, separators=(",", ":")).encode()


def text_of(document):
    """The text that an archive has of metadata. What has not their form stands as it is."""
    found = dict(document)
    if isinstance(found.get("faces"), list):
        found["faces"] = shorter(found["faces"])
    if are_areas(found.get("areas")):
        found["areas"] = columns_of_areas(found["areas"])
    return compact(found)


def are_areas(value):
    return isinstance(value, list) and all(isinstance(area, dict) and "id" in area and isinstance(area.get("attributes"), dict) for area in value)


def columns_of_areas(areas):
    """Areas as one object of the same members, with a column in the place of each value."""
    members = columns_of([{name: value for name, value in area.items() if name != "attributes"} for area in areas])
    return {"id": [], **members, "attributes": columns_of([area["attributes"] for area in areas])}


def columns_of(rows):
    """Objects as columns by the names of their members, in the order in which these come first."""
    found = {}
    for place, row in enumerate(rows):
        for name, value in row.items():
            places, values = found.setdefault(name, ([], []))
            places.append(place)
            values.append(value)
    return {name: column_of(places, values, len(rows)) for name, (places, values) in found.items()}


def column_of(places, values, count):
    """Values of the rows at some places: where not all rows have one, the runs of those that have."""
    column = shorter(values)
    return column if len(places) == count else {"of": runs_of(places), "values": column}


def runs_of(places):
    """Places that ascend as runs: the first one of each, and how many follow one another from there on."""
    runs = []
    for place in places:
        if runs and runs[-2] + runs[-1] == place:
            runs[-1] += 1
        else:
            runs += [place, 1]
    return runs


def shorter(values):
    """A list as it stands, or by the differences of its whole numbers where that is shorter."""
    if not values or any(type(value) is not int or abs(value) >= LIMIT for value in values):
        return values
    told = {"first": values[0], "by": [after - before for before, after in itertools.pairwise(values)]}
    return min(values, told, key=lambda it: len(compact(it)))


# ---- reading


def document_of(text):
    """The metadata that a text of an archive tells, as the map has them. ValueError where it is of another form."""
    found = json.loads(text)
    require(isinstance(found, dict))
    if isinstance(found.get("faces"), dict):
        found["faces"] = values_of(found["faces"])
    if isinstance(found.get("areas"), dict):
        found["areas"] = areas_of(found["areas"])
    return found


def require(holds):
    if not holds:
        raise ValueError("metadata")


def areas_of(found):
    """The areas of which each has an id."""
    require({"id", "attributes"} <= found.keys())
    count = len(values_of(found["id"]))
    members = rows_of({name: column for name, column in found.items() if name != "attributes"}, count)
    return [{**row, "attributes": more} for row, more in zip(members, rows_of(found["attributes"], count))]


def rows_of(columns, count):
    """So many objects by the columns of their members."""
    require(isinstance(columns, dict))
    rows = [{} for _ in range(count)]
    for name, column in columns.items():
        for place, value in placed(column, count):
            rows[place][name] = value
    return rows


def placed(column, count):
    """The values of a column with the places of their rows."""
    places = range(count)
    if isinstance(column, dict) and "of" in column:
        require(column.keys() == {"of", "values"})
        places, column = places_of(column["of"], count), column["values"]
    values = values_of(column)
    require(len(places) == len(values))
    return zip(places, values)


def places_of(runs, count):
    """The places of runs, which ascend and are below a count."""
    require(isinstance(runs, list) and len(runs) % 2 == 0 and all(type(number) is int for number in runs))
    places, end = [], 0
    for first, length in zip(runs[::2], runs[1::2]):
        require(end <= first and 0 <= length <= count - first)
        end = first + length
        places += range(first, end)
    return places


def values_of(column):
    """The values of a list, or of one that is told by differences."""
    if isinstance(column, list):
        return column
    require(isinstance(column, dict) and column.keys() == {"first", "by"} and isinstance(column["by"], list))
    numbers = [column["first"], *column["by"]]
    require(all(type(number) is int for number in numbers))
    return list(itertools.accumulate(numbers))
