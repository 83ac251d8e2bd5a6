// The time line in the page: a canvas that is zoomed and panned by wheel, pointer and keys, with one place chosen.
import { CanvasPen } from "./canvas.mjs";
import { drawFrame, drawTimeLine, drawWindow } from "./drawing.mjs";
import { isNear, layoutOf, placeAt, timeAt } from "./layouts.mjs";
import { grantBeside, grantOnChannel, missBeside, spanOfPlace, windowOfPlace } from "./places.mjs";
import { panned, showing, wholeView, zoomed } from "./views.mjs";

const ZOOM = 1.5;
const ZOOM_OF_A_PIXEL = 1.002;
// by a double click
const NEARER = 3;
const PAN = 0.2;
// how far a pointer moves before it drags
const DRAG_PIXELS = 4;
// rounds around a place that is gone to
const ROUNDS_OF_A_PLACE = 2;

/**
 * A time line in `frame`, which takes the focus, with its `canvas`. `changed` is called when another part is in view,
 * `chose` with a place that is chosen and how: "pointer" or "keys", and `hovered` with the place under the pointer.
 */
export class TimeLine {
  constructor(frame, canvas, { theme, changed, chose, hovered }) {
    Object.assign(this, { frame, canvas, theme, changed, chose, hovered, run: null, place: null, isAsked: false });
    new ResizeObserver(() => this.ask()).observe(frame);
    frame.addEventListener("wheel", (event) => this.onWheel(event), { passive: false });
    frame.addEventListener("dblclick", (event) => this.run && this.zoom(1 / NEARER, timeAt(this.layout, this.view, event.offsetX)));
    frame.addEventListener("keydown", (event) => this.onKey(event));
    frame.addEventListener("focus", () => this.onFocus());
    followPointer(this);
  }

  /** Shows all of a run, or the part that is in view already where `isKept`. */
  show(run, isKept) {
    this.run = run;
    this.place = null;
    this.layOut();
    this.setView(isKept ? this.view : wholeView(run.maps.rounds));
  }

  setView(view) {
    this.view = view;
    this.ask();
  }

  /** Draws before the next picture of the page, once however often it is asked for. */
  ask() {
    if (this.isAsked || !this.run) return;
    this.isAsked = true;
    requestAnimationFrame(() => {
      this.isAsked = false;
      this.draw();
      this.changed(this.view);
    });
  }

  layOut() {
    this.layout = layoutOf(Math.max(this.frame.clientWidth, 200), this.run.maps.channels.length);
  }

  draw() {
    this.layOut();
    const { wide, high } = this.layout;
    const scale = devicePixelRatio;
    this.fitCanvas(Math.round(wide * scale), Math.round(high * scale), high);
    const context = this.canvas.getContext("2d", { alpha: false });
    context.setTransform(scale, 0, 0, scale, 0, 0);
    const pen = new CanvasPen(context);
    drawTimeLine(this.run, this.view, this.layout, this.theme(), pen);
    if (this.place) this.drawChosen(pen);
  }

  /** Gives the canvas its size, which empties it, where it has another one. */
  fitCanvas(wide, high, pixels) {
    if (this.canvas.width === wide && this.canvas.height === high) return;
    this.canvas.width = wide;
    this.canvas.height = high;
    this.canvas.style.height = `${pixels}px`;
  }

  drawChosen(pen) {
    const { from, to } = spanOfPlace(this.run, this.place);
    const { missed, pending, row } = this.layout;
    const strip = this.place.misses ? missed : this.place.isPending ? pending : { up: 0, high: row };
    const window = windowOfPlace(this.run, this.place);
    if (window) drawWindow(this.layout, this.view, this.theme(), pen, this.place.channel, window);
    drawFrame(this.layout, this.view, this.theme(), pen, this.place.channel, from, to, strip.up, strip.high);
  }

  zoom(factor, at = this.centre()) {
    this.setView(zoomed(this.view, factor, at, this.run.maps.rounds));
  }

  /** The middle of what is chosen where that is in view, else of the view. */
  centre() {
    const { first, wide } = this.view;
    const { from, to } = this.place ? spanOfPlace(this.run, this.place) : { from: first, to: first + wide };
    const middle = (from + to) / 2;
    return middle >= first && middle <= first + wide ? middle : first + wide / 2;
  }

  pan(part) {
    this.setView(panned(this.view, part * this.view.wide, this.run.maps.rounds));
  }

  showAll() {
    this.setView(wholeView(this.run.maps.rounds));
  }

  /** Chooses a place. */
  choose(place, how) {
    if (!place) return;
    this.place = place;
    this.ask();
    this.chose(place, how);
  }

  /** Chooses a grant, or what was missed, and brings it into view, near. */
  goTo(place, how) {
    if (!place) return;
    const { from, to } = spanOfPlace(this.run, place);
    const widest = isNear(this.layout, this.view) ? this.view.wide : ROUNDS_OF_A_PLACE;
    this.setView(showing(this.view, from, to, this.run.maps.rounds, widest));
    this.choose(place, how);
  }

  /** The chosen place, or the first of the view. */
  from() {
    const round = Math.floor(this.view.first);
    return this.place ?? { channel: 0, round, element: -1, first: round, end: round + 1 };
  }

  goToGrant(step) {
    this.goTo(grantBeside(this.run, this.from(), step), "keys");
  }

  goToMiss(step) {
    this.goTo(missBeside(this.run, this.from(), step), "keys");
  }

  goToChannel(step) {
    const { channels } = this.run.maps;
    const place = this.from();
    const channel = (place.channel + step + channels.length) % channels.length;
    this.goTo(this.place ? grantOnChannel(this.run, place, channel) : grantBeside(this.run, place, 1), "keys");
  }

  onFocus() {
    if (this.run && !this.place && this.frame.matches(":focus-visible") && isNear(this.layout, this.view)) this.goToGrant(1);
  }

  onWheel(event) {
    if (!this.run) return;
    const isPan = event.shiftKey || Math.abs(event.deltaX) > Math.abs(event.deltaY);
    const isWhole = this.view.wide === this.run.maps.rounds && event.deltaY > 0;
    if (isWhole && !isPan) return;
    event.preventDefault();
    const pixels = (event.deltaMode === 1 ? 30 : 1) * (isPan ? event.deltaX || event.deltaY : event.deltaY);
    if (isPan) this.pan(pixels / this.layout.plot);
    else this.zoom(ZOOM_OF_A_PIXEL ** pixels, timeAt(this.layout, this.view, event.offsetX));
  }

  onKey(event) {
    // letters count in either case, since caps lock turns it
    const act = KEYS[event.key] ?? KEYS[event.key.toLowerCase()];
    if (!act || !this.run || event.ctrlKey || event.metaKey || event.altKey) return;
    event.preventDefault();
    act(this, event.shiftKey);
  }

  placeOf(event) {
    return this.run && placeAt(this.run, this.view, this.layout, event.offsetX, event.offsetY);
  }
}

const KEYS = {
  ArrowLeft: (line, isShift) => line.pan(isShift ? -1 : -PAN),
  ArrowRight: (line, isShift) => line.pan(isShift ? 1 : PAN),
  ArrowUp: (line) => line.goToChannel(-1),
  ArrowDown: (line) => line.goToChannel(1),
  Home: (line) => line.setView({ ...line.view, first: 0 }),
  End: (line) => line.pan(line.run.maps.rounds),
  "+": (line) => line.zoom(1 / ZOOM),
  "=": (line) => line.zoom(1 / ZOOM),
  "-": (line) => line.zoom(ZOOM),
  0: (line) => line.showAll(),
  n: (line) => line.goToGrant(1),
  p: (line) => line.goToGrant(-1),
  m: (line, isShift) => line.goToMiss(isShift ? -1 : 1),
};

/** Panning by dragging, choosing by a click, and hovering. */
function followPointer(line) {
  let from = null;
  let isDragged = false;
  line.frame.addEventListener("pointerdown", (event) => {
    if (!line.run || event.button !== 0) return;
    from = { x: event.offsetX, view: line.view };
    isDragged = false;
    line.frame.setPointerCapture(event.pointerId);
  });
  line.frame.addEventListener("pointermove", (event) => {
    if (!from) return line.hovered(line.placeOf(event));
    const by = event.offsetX - from.x;
    isDragged ||= Math.abs(by) > DRAG_PIXELS;
    if (isDragged) line.setView(panned(from.view, (-by / line.layout.plot) * from.view.wide, line.run.maps.rounds));
  });
  line.frame.addEventListener("pointerup", (event) => {
    if (from && !isDragged) line.choose(line.placeOf(event), "pointer");
    from = null;
  });
  line.frame.addEventListener("pointercancel", () => (from = null));
  line.frame.addEventListener("pointerleave", () => line.run && line.hovered(null));
}
