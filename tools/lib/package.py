"""A slice as a GeoPackage, of which GDAL makes the tables: the layer of faces, and a table with the areas of which each is made."""
import json

from osgeo import ogr

from command import OUTPUT, Failure
from faces_told import OWN, columns_of
from rules import free_name

LAYER, TABLE = "areas", "sources"
TYPES = {"integer": (ogr.OFTInteger64, ogr.OFSTNone), "number": (ogr.OFTReal, ogr.OFSTNone), "date": (ogr.OFTDate, ogr.OFSTNone),
         "time": (ogr.OFTString, ogr.OFSTNone), "datetime": (ogr.OFTDateTime, ogr.OFSTNone), "boolean": (ogr.OFTInteger, ogr.OFSTBoolean),
         "list": (ogr.OFTString, ogr.OFSTJSON), "text": (ogr.OFTString, ogr.OFSTNone)}


def kind_of(values):
    """The kind of a column, from its values."""
    kinds = {type(value) for value in values if value is not None}
    if kinds <= {bool} and kinds:
        return "boolean"
    if kinds <= {int} and kinds:
        return "integer" if all(value is None or -2 ** 63 <= value < 2 ** 63 for value in values) else "text"
    return "number" if kinds <= {int, float} and kinds else "list" if list in kinds else "text"


def create(layer, name, kind):
    definition = ogr.FieldDefn(name, TYPES[kind][0])
    definition.SetSubType(TYPES[kind][1])
    layer.CreateField(definition)


def fill(feature, columns):
    """Puts values into the columns, in their order; one that is not there is null."""
    for at, value in enumerate(columns.values()):
        if value is None:
            feature.SetFieldNull(at)
        elif isinstance(value, list):
            feature.SetField(at, json.dumps(value, ensure_ascii=False))
        elif isinstance(value, int):
            feature.SetFieldInteger64(at, value)
        else:
            feature.SetField(at, value)


def spell(rows):
    """Has the values of a column that are too long for a number, or of several kinds, as texts."""
    for name in rows[0] if rows else []:
        if kind_of([row[name] for row in rows]) == "text":
            for row in rows:
                row[name] = row[name] if row[name] is None else str(row[name])


def write_rows(package, layer, rows, kinds, shapes=None):
    """Makes the columns of a layer, and its rows; `kinds` has those whose kind is known."""
    spell(rows)
    for name in rows[0] if rows else []:
        create(layer, name, kinds.get(name) or kind_of([row[name] for row in rows]))
    layer.StartTransaction()
    for at, row in enumerate(rows):
        feature = ogr.Feature(layer.GetLayerDefn())
        fill(feature, row)
        if shapes:
            feature.SetGeometry(ogr.ForceToMultiPolygon(ogr.CreateGeometryFromWkb(shapes[at].wkb)))
        layer.CreateFeature(feature)
    layer.CommitTransaction()


def faces_of(exported):
    """The rows of the faces. What a face is made of stands in the table."""
    rows = [columns_of(exported.property, face, exported.fields) for face in exported.faces]
    return [{renamed(name): value for name, value in row.items() if name != "sources"} for row in rows]


def renamed(name):
    """A column may not be called like those that every GeoPackage has."""
    return free_name(name, ("fid", "geom"))


def sources_of(exported):
    """The rows of the table: for each face the areas of which it is made, with all that is known of them."""
    rows, names = [], {}
    for name in exported.known.fields:
        names[name] = free_name(name, ["fid", "geom", "face", "id", "name", *names.values()])
    for face in exported.faces:
        for source in face.sources:
            attributes = {names[name]: source.attributes.get(name) for name in names}
            rows.append({"face": face.number, "id": source.id, "name": source.name, **attributes})
    return rows, {names[name]: kind for name, kind in exported.known.fields.items()}


def write(exported, path):
    try:
        package = ogr.GetDriverByName("GPKG").CreateDataSource(str(path))
        layer = package.CreateLayer(LAYER, exported.crs, ogr.wkbMultiPolygon)
        kinds = {"face": "integer", exported.property: "text" if exported.names else "integer", "area": "number", "name": "text", "names": "list",
                 "made": "text"}
        write_rows(package, layer, faces_of(exported), {**kinds, **face_kinds(exported)}, [exported.shape(face) for face in exported.faces])
        rows, kinds = sources_of(exported)
        write_rows(package, package.CreateLayer(TABLE, None, ogr.wkbNone), rows, {"face": "integer", "name": "text", **kinds})
        package.FlushCache()
        layer = package = None
    except RuntimeError as error:
        raise Failure(f"{path.name} cannot be written: {error}", OUTPUT) from error


def face_kinds(exported):
    """The kinds of the attributes that the faces have of the areas from which they grew."""
    taken, kinds = {*OWN, exported.property, *(exported.faces[0].summed if exported.faces else ())}, {}
    for name in exported.fields:
        free = free_name(name, taken)
        taken.add(free)
        kinds[renamed(free)] = exported.known.fields[name]
    return kinds
