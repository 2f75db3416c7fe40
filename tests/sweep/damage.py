"""Random damages of an input, by a random source of a fixed seed: of its bytes, of its lines, of its words and numbers,
and of the values of JSON."""
import copy
import json
import re

NUMBERS = [
    b"0", b"1", b"2", b"3", b"4", b"7", b"10", b"20", b"-1", b"-10", b"255", b"256", b"257", b"1000", b"1001", b"32768", b"32769", b"65535",
    b"65536", b"65537", b"131072", b"131073", b"524288", b"524289", b"268435456", b"268435457", b"-268435456", b"-268435457",
    b"2147483647", b"2147483648", b"2147483649", b"-2147483648", b"-2147483649", b"4294967295", b"4294967296", b"9223372036854775807", b"9223372036854775808",
    b"-9223372036854775808", b"18446744073709551615", b"18446744073709551616", b"99999999999999999999999", b"00", b"01", b"-0", b"+1", b"1.0", b"1e2", b"0x1", b"",
]
BYTES = b"\0\t\n\r \"'+,-./0123456789:;?[\\]aefnu{}\x7f\x80\xc3\xa9\xe2\xff"
TOKEN = re.compile(rb"-?[0-9]+|[A-Za-z]+|.", re.DOTALL)
NUMBER = re.compile(rb"-?[0-9]+")


def byte(chance, data):
    """One byte becomes another, goes, or comes."""
    at = chance.randrange(len(data) + 1)
    new = bytes([chance.choice(BYTES)]) if chance.random() < 0.8 else bytes([chance.randrange(256)])
    return data[:at] + chance.choice([new + data[at + 1 :], data[at + 1 :], new + data[at:]])


def stretch(chance, data):
    """A stretch of bytes goes, comes twice, or the data ends before it."""
    start = chance.randrange(len(data) + 1)
    end = min(len(data), start + chance.choice([2, 5, 20, 100]))
    return data[:start] + chance.choice([data[end:], data[start:end] + data[start:], b""])


def some_number(chance, data):
    """A number becomes another one, near it or at a limit."""
    found = list(NUMBER.finditer(data))
    if not found:
        return byte(chance, data)
    old = chance.choice(found)
    near = [int(old[0]) + step for step in (-10, -2, -1, 1, 2, 10)] + [-int(old[0])]
    new = chance.choice(NUMBERS) if chance.random() < 0.7 else str(chance.choice(near)).encode()
    return data[: old.start()] + new + data[old.end() :]


def near_number(chance, data):
    """A number becomes one near it, or another one of the data."""
    found = list(NUMBER.finditer(data))
    if not found:
        return byte(chance, data)
    old = chance.choice(found)
    new = chance.choice([chance.choice(found)[0], *(str(int(old[0]) + step).encode() for step in (-10, -1, 1, 10))])
    return data[: old.start()] + new + data[old.end() :]


def parts(split, join):
    """Makes damages of the parts of data: one goes, comes twice, or stands in the place of another, or two change places."""

    def damage(chance, data):
        found = split(data)
        if not found:
            return byte(chance, data)
        i, j = chance.randrange(len(found)), chance.randrange(len(found))
        way = chance.randrange(4)
        if way == 0:
            del found[i]
        elif way == 1:
            found.insert(j, found[i])
        elif way == 2:
            found[i] = found[j]
        else:
            found[i], found[j] = found[j], found[i]
        return join(found)

    return damage


lines = parts(lambda data: data.split(b"\n"), b"\n".join)
tokens = parts(TOKEN.findall, b"".join)

# ---- values of JSON

VALUES = [
    None, True, False, 0, 1, 2, 3, -1, -2, -3, 4, 10, 20, 256, 65535, 65536, 1000, 1001, 2**31, 2**31 + 1, -(2**31), 2**63 - 1, 2**63, -(2**63),
    2**64, 0.5, 1.0, -0.0, 1e30, "", "a", "field", "wood", "0", "7", "Polygon", "MultiPolygon", "GeometryCollection", "Topology", "Point", "land",
    [], {}, [[]], [[[]]], [0, 0], [[0, 2]], [[1, -3]], [[[1, -3]]], [1, 1], {"type": "Polygon", "arcs": []},
    {"type": "Polygon", "arcs": [[0, 2]]}, {"scale": [1, 1], "translate": [0, 0]},
]


def places(value):
    """Each list and object in a value with each of its keys."""
    inner = value.items() if isinstance(value, dict) else enumerate(value) if isinstance(value, list) else ()
    for key, one in inner:
        yield value, key
        yield from places(one)


def json_value(chance, data):
    """A value of a JSON text becomes another, goes, comes twice, or changes places with another; the text is written anew."""
    try:
        value = json.loads(data)
    except ValueError:
        return byte(chance, data)
    found = list(places(value))
    if not found:
        return json.dumps(chance.choice(VALUES)).encode()
    (inside, key), (other, place) = chance.choice(found), chance.choice(found)
    way = chance.randrange(6)
    if way == 0:
        del inside[key]
    elif way == 1 and isinstance(inside, list):
        inside.insert(key, copy.deepcopy(other[place]))
    elif way == 2:
        inside[key] = copy.deepcopy(other[place])
    elif way == 3:
        inside[key], other[place] = copy.deepcopy(other[place]), copy.deepcopy(inside[key])
    elif way == 4 and type(inside[key]) is int:
        inside[key] += chance.choice([-10, -1, 1, 10])
    else:
        inside[key] = copy.deepcopy(chance.choice(VALUES))
    return json.dumps(value).encode()


# Ways of damage, careless and careful ones.
OF_TEXT = [[byte, stretch, some_number, lines, tokens], [near_number]]
OF_JSON = [[byte, stretch, some_number, lines, tokens], [json_value], [json_value, near_number]]


def damaged(chance, data, ways):
    """The data with one damage, or a few of one kind."""
    ways = chance.choice(ways)
    for _ in range(chance.choice([1, 1, 1, 1, 2, 2, 3])):
        data = chance.choice(ways)(chance, data)
    return data
