// A pen that draws on a canvas.
import { FULLEST, NUMBERS } from "./fills.mjs";

const FONT = "Helvetica, Arial, 'DejaVu Sans', sans-serif";
const ANCHORS = { start: "left", middle: "center", end: "right" };

/** A pen over the context of a canvas, in pixels of the page. */
export class CanvasPen {
  constructor(context) {
    this.context = context;
    this.colour = "";
  }

  /** Takes up a colour. That the context has one already is remembered here, since it is slow to tell. */
  fill(colour) {
    if (this.colour === colour) return;
    this.colour = colour;
    this.context.fillStyle = colour;
  }

  bar(x, y, wide, high, colour) {
    this.fill(colour);
    this.context.fillRect(x, y, wide, high);
  }

  /** Stacks bars in a row, pixel by pixel, which is faster than as many bars. What has a share has at least a pixel. */
  stack({ xs, wides, shares }, top, high, { fullest, kinds, ground }) {
    const scale = this.context.getTransform().a;
    const wide = Math.round(xs.at(-1) + wides.at(-1) - xs[0]) * scale;
    const image = this.context.createImageData(Math.max(1, Math.round(wide)), Math.round(high * scale));
    const pixels = new Uint32Array(image.data.buffer).fill(pixelOf(ground));
    const inks = kinds.map(pixelOf);
    const back = pixelOf(fullest);
    for (let at = 0; at < xs.length; at++) {
      const from = Math.round((xs[at] - xs[0]) * scale);
      const to = Math.min(Math.round((xs[at] + wides[at] - xs[0]) * scale), image.width);
      const own = shares.subarray(at * NUMBERS);
      fillColumn(pixels, image.width, from, to, Math.round((1 - own[FULLEST]) * image.height), image.height, back);
      stackColumn(pixels, image, from, to, own, inks);
    }
    this.context.putImageData(image, Math.round(xs[0] * scale), Math.round(top * scale));
  }

  box(x, y, wide, high, colour, { edge, isDashed }) {
    this.bar(x, y, wide, high, colour);
    if (!edge) return;
    this.context.strokeStyle = edge;
    this.context.lineWidth = 1;
    this.context.setLineDash(isDashed ? [2, 2] : []);
    this.context.strokeRect(x, y, wide, high);
  }

  frame(x, y, wide, high, colour) {
    this.context.strokeStyle = colour;
    this.context.lineWidth = 3;
    this.context.setLineDash([]);
    this.context.strokeRect(x, y, wide, high);
  }

  verticals(colour, xs, y, high) {
    this.fill(colour);
    for (const x of xs) this.context.fillRect(Math.round(x), y, 1, high);
  }

  text(x, y, text, size, { anchor, colour, isBold, isTurned }) {
    this.fill(colour);
    this.context.font = `${isBold ? "bold " : ""}${size}px ${FONT}`;
    this.context.textAlign = ANCHORS[anchor ?? "start"];
    if (!isTurned) return this.context.fillText(text, x, y);
    this.context.save();
    this.context.translate(x, y - size / 3);
    this.context.rotate(-Math.PI / 2);
    this.context.fillText(text, 0, size / 3);
    this.context.restore();
  }
}

/** A colour such as "#5b9fd6" as a pixel of a canvas, whose first byte is red. */
function pixelOf(colour) {
  const [red, green, blue] = [1, 3, 5].map((at) => parseInt(colour.slice(at, at + 2), 16));
  return ((255 << 24) | (blue << 16) | (green << 8) | red) >>> 0;
}

function stackColumn(pixels, { width, height }, from, to, shares, inks) {
  let low = height;
  for (let place = 0; place < inks.length; place++) {
    if (shares[place] === 0) continue;
    const top = Math.max(low - Math.max(1, Math.round(shares[place] * height)), 0);
    fillColumn(pixels, width, from, to, top, low, inks[place]);
    low = top;
  }
}

function fillColumn(pixels, width, from, to, top, low, ink) {
  for (let row = top * width; row < low * width; row += width) {
    for (let x = from; x < to; x++) pixels[row + x] = ink;
  }
}
