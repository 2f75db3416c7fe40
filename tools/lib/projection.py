"""Which coordinate system a map has: the one that is asked for, or one that suits the data."""
import math

from osgeo import gdal, ogr, osr

from command import Failure

# Whatever of GDAL is used tells its errors as exceptions, and nothing by itself.
gdal.UseExceptions()
ogr.UseExceptions()
osr.UseExceptions()
gdal.PushErrorHandler("CPLQuietErrorHandler")

AUTO = "auto"
# Beyond so many degrees no plane is near enough to the ground in all directions, and a cylinder is taken.
WIDE = 150


def crs_named(name, option):
    crs = osr.SpatialReference()
    try:
        crs.SetFromUserInput(name)
    except RuntimeError as error:
        raise Failure(f"{option} {name} is no coordinate system that GDAL knows") from error
    crs.SetAxisMappingStrategy(osr.OAMS_TRADITIONAL_GIS_ORDER)
    return crs


def turn_between(given, wanted):
    """What turns points of one coordinate system into those of another."""
    try:
        return osr.CoordinateTransformation(given, wanted)
    except RuntimeError as error:
        raise Failure(f"{given.GetName()} cannot be turned into {wanted.GetName()}: {error}") from error


def crs_code(crs):
    """The name of a coordinate system by its authority, or else its text."""
    if crs is None:
        return None
    authority, code = crs.GetAuthorityName(None), crs.GetAuthorityCode(None)
    return f"urn:ogc:def:crs:{authority}::{code}" if authority and code else crs.ExportToWkt()


def is_in_metres(crs):
    return crs is not None and crs.IsProjected() and crs.GetLinearUnits() == 1


def is_true(crs):
    """Whether lengths and areas in a coordinate system are about those on the ground: metres, and not Mercator's, which grow towards the poles."""
    method = crs.GetAttrValue("PROJECTION") or ""
    return is_in_metres(crs) and not method.startswith(("Mercator", "Popular"))


def may_be_degrees(bounds):
    west, east, south, north = bounds
    return -180 <= west <= east <= 360 and -90 <= south <= north <= 90


def suiting(given, bounds):
    """An equal-area system in metres that is centred on the data; `bounds` are west, east, south, north in the given system."""
    west, south, east, north = in_degrees(given, bounds)
    if east - west > WIDE or north - south > WIDE:
        return called("equal area, on a cylinder", "+proj=cea +lat_ts=30 +lon_0=0 +x_0=0 +y_0=0 +datum=WGS84 +units=m +no_defs")
    # A centre of few digits, so that the same data with one area more has the same one.
    latitude, longitude = nice((south + north) / 2, north - south), nice((west + east) / 2, east - west)
    return called(f"equal area, round {latitude:g} {longitude:g}",
                  f"+proj=laea +lat_0={latitude:g} +lon_0={longitude:g} +x_0=0 +y_0=0 +datum=WGS84 +units=m +no_defs")


def called(name, proj):
    """A system that has a name of its own."""
    crs = crs_named(proj, "--t_srs")
    crs.SetProjCS(name)
    return crs


def in_degrees(given, bounds):
    west, east, south, north = bounds
    turn = turn_between(given, crs_named("OGC:CRS84", "--t_srs"))
    try:
        found = turn.TransformBounds(west, south, east, north, 21)
    except RuntimeError as error:
        raise Failure(f"the data cannot be placed on the globe by {given.GetName()}: {error}; --keep keeps its coordinates") from error
    west, south, east, north = found
    # What crosses the meridian of 180 degrees ends west of where it begins.
    east = east + 360 if east < west else east
    if not all(map(math.isfinite, (west, south, east, north))):
        raise Failure(f"the data cannot be placed on the globe by {given.GetName()}; --keep keeps its coordinates")
    return west, south, east, north


def nice(value, reach):
    """The value to about a fiftieth of what is reached."""
    digits = max(0, math.ceil(-math.log10(reach / 50))) if reach > 0 else 6
    return round((value + 180) % 360 - 180 if abs(value) > 180 else value, min(digits, 6))


class Chosen:
    """The coordinate system of a map, what turns the data into it, and lines that tell why."""

    def __init__(self, given, layer, words, path):
        self.given, self.crs, self.turn, self.told, self.auto = given, given, None, [], not (words.keep or words.quantize or words.t_srs not in (None, AUTO))
        if words.t_srs and given is None:
            raise Failure(f"{path} does not say its coordinate system, so it cannot be projected: name it by --s_srs")
        if words.t_srs not in (None, AUTO):
            self.project(crs_named(words.t_srs, "--t_srs"))
            if self.crs.IsGeographic():
                raise Failure(f"{words.t_srs} counts in degrees; name a system in metres, in which areas are true")
        elif self.auto:
            self.choose(layer.GetExtent())
        elif given is not None and given.IsGeographic():
            self.told.append("the coordinates are degrees, so lengths and areas are not true, and merging goes by them: --t_srs auto is better")

    def project(self, wanted):
        self.crs, self.turn = wanted, turn_between(self.given, wanted)

    def choose(self, bounds):
        if self.given is None:
            degrees = "; where they are degrees, --s_srs EPSG:4326 has them projected" if may_be_degrees(bounds) else " (--s_srs names it)"
            self.told.append(f"the file does not say its coordinate system, so its coordinates stay as they are{degrees}")
        elif is_true(self.given):
            self.told.append(f"the coordinates are in metres and stay as they are: {self.given.GetName()}")
        else:
            self.project(suiting(self.given, bounds))
            self.told.append(f"projected to an equal-area system that is centred on the data: {self.crs.ExportToProj4().strip()}")
