"""Pictures of areas, a colour for each class: as SVG, and as PNG by GDAL."""
from xml.sax.saxutils import escape

from osgeo import gdal, ogr
from shapely.ops import unary_union

from command import Failure, OUTPUT
from rules import SEA, SLIVER

COLOURS = ["#b5cf8e", "#e8c98a", "#9cc5a1", "#d9a5a0", "#b9b2d6", "#efe3a0", "#a8c4b8", "#dcb98f", "#c7d3a0", "#d6b6c8", "#a9b98a", "#e6b890"]
OWN_COLOURS = {SEA: "#a7c8e0", SLIVER: "#d03a3a"}
BORDER, GROUND = "#4a4a4a", "#ffffff"
# A picture is drawn larger and then made smaller, so that its lines are smooth.
FINER = 3


def bytes_of(colour):
    return [int(colour[at:at + 2], 16) for at in (1, 3, 5)]


class Picture:
    def __init__(self, shapes, names, width):
        self.shapes, self.names, self.width = shapes, names, width
        bounds = [shape.bounds for shape, _ in shapes]
        if not bounds:
            raise Failure("a slice without a face has no picture")
        self.west, self.north = min(it[0] for it in bounds), max(it[3] for it in bounds)
        east, south = max(it[2] for it in bounds), min(it[1] for it in bounds)
        self.scale = width / (east - self.west)
        self.height = max(1, round((self.north - south) * self.scale))
        if self.height > 10 * width:
            raise Failure(f"the picture would be {self.height} pixels high; take a smaller --width")

    def colour(self, face):
        number = self.names.index(face.kind) if self.names else face.kind
        return OWN_COLOURS.get(face.origin.made) or COLOURS[number % len(COLOURS)]

    def path(self, polygon):
        def spot(point):
            return f"{(point[0] - self.west) * self.scale:.2f},{(self.north - point[1]) * self.scale:.2f}"

        return "".join("M" + " ".join(map(spot, ring.coords[:-1])) + "Z" for ring in (polygon.exterior, *polygon.interiors))

    def svg(self):
        lines = [f'<svg xmlns="http://www.w3.org/2000/svg" viewBox="0 0 {self.width} {self.height}" stroke="{BORDER}" stroke-linejoin="round" '
                 'fill-rule="evenodd">']
        for shape, face in self.shapes:
            paths = "".join(map(self.path, getattr(shape, "geoms", [shape])))
            called = f", {face.origin.name}" if face.origin.name else ""
            lines.append(f'<path fill="{self.colour(face)}" d="{paths}"><title>face {face.number}: {escape(f"{face.kind}{called}")}</title></path>')
        return "\n".join([*lines, "</svg>", ""])

    def write_png(self, path):
        raster = gdal.GetDriverByName("MEM").Create("", self.width * FINER, self.height * FINER, 3)
        step = 1 / (self.scale * FINER)
        raster.SetGeoTransform([self.west, step, 0, self.north, 0, -step])
        for band, value in enumerate(bytes_of(GROUND), 1):
            raster.GetRasterBand(band).Fill(value)
        for shape, face in self.shapes:
            burn(raster, shape, self.colour(face))
        burn(raster, unary_union([shape.boundary for shape, _ in self.shapes]).buffer(0.5 * FINER * step), BORDER)
        try:
            gdal.Translate(str(path), raster, format="PNG", width=self.width, height=self.height, resampleAlg="average", creationOptions=["ZLEVEL=9"],
                           noData="none")
        except RuntimeError as error:
            raise Failure(f"the picture cannot be written: {error}", OUTPUT) from error


def burn(raster, shape, colour):
    source = ogr.GetDriverByName("Memory").CreateDataSource("")
    layer = source.CreateLayer("shape")
    feature = ogr.Feature(layer.GetLayerDefn())
    feature.SetGeometry(ogr.CreateGeometryFromWkb(shape.wkb))
    layer.CreateFeature(feature)
    gdal.RasterizeLayer(raster, [1, 2, 3], layer, burn_values=bytes_of(colour))
