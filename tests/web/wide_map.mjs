// The page over a map that reaches the corners of the plane.
import { IDLE, look, wrongSamples } from "./served.mjs";

const MOST = 2 ** 31;

/** A view is right if each face has the colour that the slice at its step gives it. */
async function isRight({ tab, tally, served }, name) {
  await tab.until(IDLE);
  const view = await look(tab);
  const { count, wrong } = wrongSamples(view, await served.slice(view.step));
  tally.holds(`${name}: step ${view.step}, each face has its colour (${count} samples): ${JSON.stringify(wrong.slice(0, 3))}`, count > 20 && wrong.length === 0);
  return view;
}

export async function wideMap(on) {
  const { tab, tally } = on;
  const whole = await isRight(on, "all of the plane");
  tally.holds("all of it is shown", [whole.box.x0, whole.box.y0].every((z) => z <= -MOST) && [whole.box.x1, whole.box.y1].every((z) => z >= MOST));
  for (const [x, y] of [[1, 1], [-1, 1], [-1, -1], [1, -1]]) {
    for (const zoom of [-20, -16]) {
      const place = [x, y].map((sign) => sign * (MOST - 100 * 2 ** -zoom));
      await tab.value(`location.hash = '#${zoom}/${place.join("/")}'`);
      await tab.until(`${IDLE} && window.tgap.sheet.map.getZoom() === ${zoom} && Math.abs(window.tgap.sheet.map.getCenter().lng - ${place[0]}) < 1`);
      const view = await isRight(on, `the corner ${x} ${y}, zoom ${zoom}`);
      if (zoom === -16) tally.holds("so near, it is the finest step", view.step === 0);
    }
  }
}
