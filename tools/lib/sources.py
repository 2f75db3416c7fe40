"""Areas out of any file that GDAL reads, with all that is told of each."""
import math
from dataclasses import dataclass, field

import shapely.wkb
from osgeo import gdal, ogr, osr

from command import FILE, INPUT, Failure, counted, standard_input, with_progress
from coverage import repeated
from projection import Chosen, crs_named
from rules import SEA, SLIVER
from topology import MOST

# The class of an area whose property is empty, and of all where none is asked for.
UNKNOWN, PLAIN = "unknown", "area"
# What a property is called that is taken for a name where none is named, the likeliest first.
NAMES = ("name", "name_long", "name_en", "title", "nom", "nombre", "naam", "nome", "namn")
AREAL = (ogr.wkbPolygon, ogr.wkbMultiPolygon)
SHOWN = 3
KINDS = {ogr.OFTInteger: "integer", ogr.OFTInteger64: "integer", ogr.OFTReal: "number", ogr.OFTDate: "date", ogr.OFTTime: "time", ogr.OFTDateTime: "datetime",
         ogr.OFTString: "text", ogr.OFTIntegerList: "list", ogr.OFTInteger64List: "list", ogr.OFTRealList: "list", ogr.OFTStringList: "list"}


@dataclass
class Area:
    """A feature of the source, its shape in the coordinates of the map."""
    id: object
    name: str
    kind: str
    made: str
    attributes: dict
    shape: object

    @property
    def title(self):
        return f"{self.name} (id {self.id})" if self.name else f"id {self.id}"


@dataclass
class Layer:
    """What was read of a layer."""
    name: str
    areas: list
    crs: object
    is_auto: bool
    fields: dict
    told: list = field(default_factory=list)


def opened(path, words):
    """The file, its layer, and what a file in memory is called, where it came by the standard input."""
    place, shown = path, "the standard input" if path == INPUT else path
    if path == INPUT:
        place = "/vsimem/input"
        gdal.FileFromMemBuffer(place, standard_input())
    try:
        # Texts of a shapefile come as they stand there, and are read below.
        source = gdal.OpenEx(place, gdal.OF_VECTOR | gdal.OF_READONLY, open_options=["ENCODING="] if words.encoding else [])
    except RuntimeError as error:
        raise Failure(f"{shown} is no file of areas that GDAL reads: {error}", FILE) from error
    layers = [source.GetLayer(number) for number in range(source.GetLayerCount())]
    names = [layer.GetName() for layer in layers]
    # Tables without geometries, such as that of export, are in nobody's way.
    drawn = [layer.GetName() for layer in layers if layer.GetGeomType() != ogr.wkbNone] or names
    if words.layer is None and len(drawn) != 1:
        raise Failure(f"{shown} has {len(names)} layers, of which one is to be named by --layer: {', '.join(names)}")
    if words.layer is not None and words.layer not in names:
        raise Failure(f"{shown} has no layer {words.layer!r}; there is {', '.join(names)}")
    return source, source.GetLayerByName(words.layer or drawn[0]), shown


class Fields:
    """The properties of a layer: which of them are class, id, name and mark of an area, and which are kept."""

    def __init__(self, layer, path, words):
        self.encoding, self.path, definition = words.encoding, path, layer.GetLayerDefn()
        self.definitions = [definition.GetFieldDefn(number) for number in range(definition.GetFieldCount())]
        self.names = [each.GetName() for each in self.definitions]
        self.property, self.id, self.made = (self.number(f"--{option}", getattr(words, option)) for option in ("property", "id", "made"))
        self.name = self.guessed() if words.name is None else self.number("--name", None if words.name == "-" else words.name)
        for option, given in (("--keep-fields", words.keep_fields or []), ("--drop-fields", words.drop_fields)):
            for name in given:
                self.number(option, name)
        dropped = {*words.drop_fields, *(set(self.names) - set(words.keep_fields) if words.keep_fields is not None else ())}
        self.kept = [number for number, name in enumerate(self.names) if name not in dropped and self.kind(number)]
        self.lost = [name for number, name in enumerate(self.names) if not self.kind(number)]

    def number(self, option, name):
        """The number of a property, or None where no name is given."""
        if name is None:
            return None
        if name not in self.names:
            raise Failure(f"{self.path} has no property {name!r} for {option}; there is {', '.join(self.names) or 'none'}")
        return self.names.index(name)

    def guessed(self):
        """The property that is most likely the name of an area: one that is called so, or else the first text whose name ends or begins like it."""
        texts = {number: name.casefold() for number, name in enumerate(self.names) if self.kind(number) == "text" and number not in (self.property, self.id)}
        called = [number for wanted in NAMES for number, name in texts.items() if name == wanted]
        like = [number for number, name in texts.items() if name.startswith("name") or name.endswith(("name", "nam", "nm"))]
        return next(iter(called + like), None)

    def kind(self, number):
        """The kind of a property in the metadata, or None where it has no place there."""
        each = self.definitions[number]
        return "boolean" if each.GetSubType() == ogr.OFSTBoolean else KINDS.get(each.GetType())

    def kinds(self):
        return {self.names[number]: self.kind(number) for number in self.kept}

    def attributes(self, feature):
        return {self.names[number]: self.value(feature, number) for number in self.kept}

    def value(self, feature, number):
        """A property as JSON has it: null where there is none, and texts for dates and times."""
        kind = self.kind(number)
        if not feature.IsFieldSetAndNotNull(number):
            return None
        if kind == "boolean":
            return bool(feature.GetFieldAsInteger(number))
        if kind == "integer":
            return feature.GetFieldAsInteger64(number)
        if kind == "number":
            value = feature.GetFieldAsDouble(number)
            return value if math.isfinite(value) else None
        if kind in ("date", "time", "datetime"):
            return moment(kind, *feature.GetFieldAsDateTime(number))
        return self.list(feature, number) if kind == "list" else self.text(feature, number)

    def list(self, feature, number):
        """A property that is a list; an empty one is nothing to GDAL."""
        reads = {ogr.OFTIntegerList: feature.GetFieldAsIntegerList, ogr.OFTInteger64List: feature.GetFieldAsInteger64List,
                 ogr.OFTRealList: feature.GetFieldAsDoubleList, ogr.OFTStringList: feature.GetFieldAsStringList}
        return list(reads[self.definitions[number].GetType()](number) or [])

    def text(self, feature, number):
        """The value of a property as a text. A whole number is written as one, also where its column holds fractions: 24 and not 24.0, which would name
        no class."""
        if number is None or not feature.IsFieldSetAndNotNull(number):
            return None
        if self.definitions[number].GetType() == ogr.OFTReal:
            value = feature.GetFieldAsDouble(number)
            return str(int(value)) if value == value // 1 else repr(value)
        value = feature.GetFieldAsString(number)
        # Bytes that are not UTF-8 come as they are, or as halves of pairs in a text.
        data = value.encode("utf-8", "surrogateescape") if isinstance(value, str) else bytes(value)
        try:
            return data.decode("utf-8")
        except UnicodeDecodeError:
            return self.decoded(data, feature, number)

    def mark(self, feature):
        """The mark of an area that an import before has made."""
        value = self.text(feature, self.made) or None
        if value not in (None, SLIVER, SEA):
            raise Failure(f"{self.path}: --made {self.names[self.made]} is {value!r} for feature {feature.GetFID()}, and neither {SLIVER!r} nor {SEA!r}")
        return value

    def decoded(self, data, feature, number):
        """A text that is not UTF-8, by the encoding that was named. One file may have both, where it was put together from others."""
        where = f"{self.path}: {self.names[number]!r} of feature {feature.GetFID()} is not UTF-8"
        if not self.encoding:
            raise Failure(f"{where}: name how it is written by --encoding, such as ISO-8859-1 or CP1250")
        try:
            return data.decode(self.encoding)
        except (LookupError, UnicodeDecodeError) as error:
            raise Failure(f"{where}, and cannot be read as {self.encoding}: {error}") from error


def moment(kind, year, month, day, hour, minute, second, zone):
    """A date or time by ISO 8601. GDAL counts zones in quarters of an hour from 100, and 0 and 1 say nothing of them."""
    date = f"{year:04}-{month:02}-{day:02}"
    time = f"{hour:02}:{minute:02}:{second:06.3f}".removesuffix(".000")
    away = (zone - 100) * 15
    ending = "" if zone < 2 else "Z" if away == 0 else f"{'-' if away < 0 else '+'}{abs(away) // 60:02}:{abs(away) % 60:02}"
    return {"date": date, "time": time + ending}.get(kind, f"{date}T{time}{ending}")


def polygons_of(geometry, where):
    """The geometry as plain polygons: curves as rows of points, without heights, and collections of polygons as one."""
    geometry = geometry.GetLinearGeometry() if geometry.HasCurveGeometry() else geometry.Clone()
    geometry.FlattenTo2D()
    if geometry.GetGeometryType() == ogr.wkbGeometryCollection and geometry.GetGeometryCount():
        members = [geometry.GetGeometryRef(number) for number in range(geometry.GetGeometryCount())]
        if all(ogr.GT_Flatten(member.GetGeometryType()) in AREAL for member in members):
            return ogr.ForceToMultiPolygon(geometry)
    if geometry.GetGeometryType() not in AREAL:
        raise Failure(f"{where} is no area but a {geometry.GetGeometryName()}; leave it out, as by ogr2ogr -where")
    return geometry


def check_layer(layer, path):
    """Refuses a layer of lines or points by its own word, and one that is too large, before anything is read."""
    kind = ogr.GT_Flatten(ogr.GT_GetLinear(layer.GetGeomType()))
    if kind not in (*AREAL, ogr.wkbUnknown, ogr.wkbGeometryCollection):
        what = "has no geometries" if kind == ogr.wkbNone else f"is none of areas but of {ogr.GeometryTypeToName(layer.GetGeomType())}"
        raise Failure(f"{path}, layer {layer.GetName()}, {what}; --layer names another one, and lines become areas by ST_Polygonize of ogr2ogr or PostGIS")


def check_number(areas, path):
    parts = sum(len(getattr(area.shape, "geoms", [area.shape])) for area in areas)
    if len(areas) > MOST["faces"] or parts > 2 * MOST["faces"]:
        raise Failure(f"{path} has {counted(len(areas), 'area')} in {counted(parts, 'part')}, and a map has at most {MOST['faces']:,} faces: take a smaller "
                      "region, as by ogr2ogr -spat, or put areas together before")


def crs_of(layer):
    """The coordinate system of a layer, or None where that is not known, which a GeoPackage has names for."""
    crs = layer.GetSpatialRef()
    if crs is None or crs.GetName().startswith("Undefined"):
        return None
    crs.SetAxisMappingStrategy(osr.OAMS_TRADITIONAL_GIS_ORDER)
    return crs


def read_areas(path, words):
    """The areas of a layer, and what was done with it. `words` are those of import."""
    source, layer, path = opened(path, words)
    check_layer(layer, path)
    fields = Fields(layer, path, words)
    chosen = Chosen(crs_named(words.s_srs, "--s_srs") if words.s_srs else crs_of(layer), layer, words, path)
    areas, without = [], 0
    for feature in with_progress(layer, f"reading {path}"):
        geometry = feature.GetGeometryRef()
        if geometry is None or geometry.IsEmpty():
            without += 1
        else:
            areas.append(area_of(feature, geometry, fields, chosen.turn, path))
    if not areas:
        raise Failure(f"{path}, layer {layer.GetName()}: there is no area in it")
    check_number(areas, path)
    check_ids(areas, words)
    return Layer(layer.GetName(), areas, chosen.crs, chosen.auto, fields.kinds(), list(told_of(fields, without, words)) + chosen.told)


def told_of(fields, without, words):
    if without:
        yield f"left out: {counted(without, 'feature')} without a geometry"
    if fields.name is not None and words.name is None:
        yield f"the names of the areas are those of {fields.names[fields.name]!r} (--name P takes another, --name - none)"
    if fields.lost:
        yield f"not kept, since JSON has no place for it: {', '.join(fields.lost)}"


def check_ids(areas, words):
    if any(area.id is None for area in areas):
        raise Failure(f"--id {words.id} is empty for {next(area.name or 'an area without a name' for area in areas if area.id is None)}, which needs an id")
    doubled = repeated(area.id for area in areas)
    if doubled:
        first = ", ".join(area.name or "one without a name" for area in areas if area.id == doubled[0])
        raise Failure(f"{counted(len(doubled), 'value')} of --id {words.id} come more than once, so they are no ids: {', '.join(map(repr, doubled[:SHOWN]))}"
                      f"{' ..' if len(doubled) > SHOWN else ''}; {doubled[0]!r} is the id of {first}")


def area_of(feature, geometry, fields, turn, path):
    identity = fields.text(feature, fields.id) if fields.id is not None else feature.GetFID()
    kind = PLAIN if fields.property is None else fields.text(feature, fields.property) or UNKNOWN
    area = Area(identity, fields.text(feature, fields.name), kind, fields.mark(feature), fields.attributes(feature), None)
    geometry = polygons_of(geometry, f"{path}: {area.title}")
    if turn is not None:
        try:
            geometry.Transform(turn)
        except RuntimeError as error:
            raise Failure(f"{path}: {area.title} cannot be projected by --t_srs: {error}") from error
    area.shape = shapely.wkb.loads(bytes(geometry.ExportToWkb()))
    return area
