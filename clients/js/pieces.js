// Work that is done piece by piece, so that frames can be drawn between. It is a generator, which yields behind each piece and gives its result in the end.

// After so long a frame may be drawn. It leaves a frame of 16 milliseconds most of its time, on a machine that is half as fast too.
const MILLISECONDS_AT_ONCE = 4;

// All work shares what time there is up to the next frame.
let end = 0;

async function rest() {
  await new Promise((resolve) => setTimeout(resolve));
  end = performance.now() + MILLISECONDS_AT_ONCE;
}

/** Does work with rests between its pieces, and gives its result. */
export async function inPieces(work) {
  for (;;) {
    if (performance.now() >= end) await rest();
    const { done, value } = work.next();
    if (done) return value;
  }
}

/** Does work without a rest, and gives its result. */
export function atOnce(work) {
  for (;;) {
    const { done, value } = work.next();
    if (done) return value;
  }
}
