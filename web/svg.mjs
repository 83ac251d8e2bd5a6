// A picture (SVG) of what is in view, with a title and a legend.
import { drawTimeLine } from "./drawing.mjs";
import { FULLEST, NUMBERS } from "./fills.mjs";
import { KINDS, LIGHT } from "./kinds.mjs";
import { layoutOf } from "./layouts.mjs";
import { pixels } from "./numbers.mjs";
import { roundsIn } from "./views.mjs";
import { titleOf } from "./words.mjs";

const WIDE = 1200;
const EDGE = 24;
const TITLE = 76;
const LEGEND_COLUMN = 290;
const LEGEND_COLUMNS = 4;
const LEGEND_LINE = 24;
const FONT = "Helvetica, Arial, DejaVu Sans, sans-serif";
const ESCAPES = { "&": "&amp;", "<": "&lt;", ">": "&gt;", '"': "&quot;" };

/** The picture of a view, with the name of what was scheduled. */
export function pictureOf(run, view, name) {
  const layout = layoutOf(WIDE, run.maps.channels.length);
  const pen = new SvgPen();
  const kinds = drawTimeLine(run, view, layout, LIGHT, pen);
  const { first, end } = roundsIn(view, run.maps.rounds);
  const title = titleOf(run, first, end);
  const legend = Object.keys(KINDS).filter((kind) => kinds.has(kind));
  const high = TITLE + layout.high + Math.ceil(legend.length / LEGEND_COLUMNS) * LEGEND_LINE + EDGE;
  const size = `viewBox="0 0 ${WIDE} ${high}" width="${WIDE}" height="${high}"`;
  const head = new SvgPen();
  head.bar(0, 0, WIDE, high, LIGHT.paper);
  head.text(EDGE, 36, title, 22, { isBold: true });
  head.text(EDGE, 60, `${name}. Each row is a channel.`, 13, { colour: LIGHT.faint });
  const foot = new SvgPen();
  legend.forEach((kind, place) => drawEntry(foot, kind, place, TITLE + layout.high + 8));
  return [
    `<svg xmlns="http://www.w3.org/2000/svg" ${size} font-family="${FONT}" fill="${LIGHT.ink}">`,
    "<!-- Drawn by the page of Ninepinsloe, whose drawing isn't proved. -->",
    `<title>${escaped(title)}</title>`,
    ...head.parts(),
    `<g transform="translate(0 ${TITLE})">`,
    ...pen.parts(),
    "</g>",
    ...foot.parts(),
    "</svg>\n",
  ].join("\n");
}

function drawEntry(pen, kind, place, top) {
  const x = EDGE + (place % LEGEND_COLUMNS) * LEGEND_COLUMN;
  const y = top + Math.floor(place / LEGEND_COLUMNS) * LEGEND_LINE;
  pen.box(x, y, 22, 14, LIGHT[kind], { edge: LIGHT.border, isDashed: kind === "idle" });
  pen.text(x + 30, y + 12, KINDS[kind].name, 13, {});
}

/** A text as it stands between tags and in attributes. */
export function escaped(text) {
  return text.replace(/[&<>"]/g, (letter) => ESCAPES[letter]);
}

/** A pen that writes SVG. Bars of one colour that follow one another become one path. */
class SvgPen {
  constructor() {
    this.done = [];
    this.colour = "";
    this.bars = [];
  }

  parts() {
    if (this.bars.length > 0) this.done.push(`<path fill="${this.colour}" d="${this.bars.join("")}"/>`);
    this.bars = [];
    return this.done;
  }

  put(part) {
    this.parts().push(part);
  }

  bar(x, y, wide, high, colour) {
    if (colour !== this.colour) this.parts();
    this.colour = colour;
    this.bars.push(`M${pixels(x)} ${pixels(y)}h${pixels(wide)}v${pixels(high)}h${pixels(-wide)}z`);
  }

  stack({ xs, wides, shares }, top, high, { fullest, kinds }) {
    const low = new Float64Array(xs.length).fill(top + high);
    xs.forEach((x, at) => {
      const tall = shares[at * NUMBERS + FULLEST] * high;
      if (tall > 0) this.bar(x, top + high - tall, wides[at], tall, fullest);
    });
    kinds.forEach((colour, place) => {
      for (let at = 0; at < xs.length; at++) {
        const tall = shares[at * NUMBERS + place] * high;
        low[at] -= tall;
        if (tall > 0) this.bar(xs[at], low[at], wides[at], tall, colour);
      }
    });
  }

  box(x, y, wide, high, colour, { edge, isDashed, said }) {
    const place = `x="${pixels(x)}" y="${pixels(y)}" width="${pixels(wide)}" height="${pixels(high)}"`;
    const stroke = edge ? ` stroke="${edge}"${isDashed ? ' stroke-dasharray="2 2"' : ""}` : "";
    const title = said ? `<title>${escaped(said())}</title>` : "";
    this.put(`<rect ${place} fill="${colour}"${stroke}>${title}</rect>`);
  }

  verticals(colour, xs, y, high) {
    const path = xs.map((x) => `M${pixels(x)} ${pixels(y)}v${pixels(high)}`).join("");
    if (path) this.put(`<path stroke="${colour}" d="${path}"/>`);
  }

  text(x, y, text, size, { anchor, colour, isBold, isTurned }) {
    const place = `x="${pixels(x)}" y="${pixels(y)}" font-size="${size}"`;
    const stand = anchor ? ` text-anchor="${anchor}"` : "";
    const look = `${colour ? ` fill="${colour}"` : ""}${isBold ? ' font-weight="bold"' : ""}`;
    const turn = isTurned ? ` transform="rotate(-90 ${pixels(x)} ${pixels(y - size / 3)})"` : "";
    this.put(`<text ${place}${stand}${look}${turn}>${escaped(text)}</text>`);
  }
}
