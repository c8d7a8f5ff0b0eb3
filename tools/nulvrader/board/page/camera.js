// What part of the map is seen: moved and zoomed by mouse, finger, keys and buttons.

const CLOSEST = 120; // units of the drawing that are seen across, at least
const STEP = 1.3;
const FRAME = 26; // pixels around all, for what is drawn larger from afar
const EDGE = 8; // pixels from the edge of the map, within which a point is not seen well

export class Camera {
  /** `bounds` is the box around all; `changed` is called with how many pixels a unit has. */
  constructor(element, bounds, changed) {
    Object.assign(this, { element, bounds, changed });
    this.pointers = new Map();
    this.moved = false;
    this.all();
    this.listen();
  }

  listen() {
    const { element } = this;
    element.addEventListener('wheel', (event) => {
      event.preventDefault();
      this.zoom(event.deltaY < 0 ? 1 / STEP : STEP, event);
    }, { passive: false });
    element.addEventListener('pointerdown', (event) => this.down(event));
    element.addEventListener('pointermove', (event) => this.move(event));
    for (const end of ['pointerup', 'pointercancel', 'pointerleave']) {
      element.addEventListener(end, (event) => this.pointers.delete(event.pointerId));
    }
    element.addEventListener('keydown', (event) => this.key(event));
    new ResizeObserver(() => this.show()).observe(element);
  }

  /** Shows all. */
  all() {
    const { clientWidth: width, clientHeight: height } = this.element;
    const [x, y, across, down] = this.bounds;
    const more = width && height ? FRAME / Math.min(width / across, height / down) : 0;
    this.box = [x - more, y - more, across + 2 * more, down + 2 * more];
    this.show();
  }

  show() {
    const { clientWidth: width, clientHeight: height } = this.element;
    this.element.setAttribute('viewBox', this.box.map((number) => number.toFixed(1)).join(' '));
    if (width && height) {
      this.scale = Math.min(width / this.box[2], height / this.box[3]);
      this.changed(this.scale);
    }
  }

  /** The point of the drawing under a point of the page. */
  under(event) {
    const matrix = this.element.getScreenCTM();
    if (!matrix) return [this.box[0] + this.box[2] / 2, this.box[1] + this.box[3] / 2];
    const point = new DOMPoint(event.clientX, event.clientY).matrixTransform(matrix.inverse());
    return [point.x, point.y];
  }

  /** Zooms by a factor, about a point of the page or the middle. */
  zoom(factor, event = null) {
    const most = Math.max(this.bounds[2], this.bounds[3]) * 2;
    const by = Math.min(most / this.box[2], Math.max(CLOSEST / this.box[2], factor));
    const [x, y] = event ? this.under(event) : [this.box[0] + this.box[2] / 2, this.box[1] + this.box[3] / 2];
    this.box = [x - (x - this.box[0]) * by, y - (y - this.box[1]) * by, this.box[2] * by, this.box[3] * by];
    this.show();
  }

  /** Moves by parts of what is seen. */
  pan(right, down) {
    this.box[0] += right * this.box[2];
    this.box[1] += down * this.box[3];
    this.show();
  }

  /** Shows points apart from one another. */
  showAll(points) {
    const [xs, ys] = [points.map(([x]) => x), points.map(([, y]) => y)];
    const [left, top] = [Math.min(...xs), Math.min(...ys)];
    const size = Math.max(Math.max(...xs) - left, Math.max(...ys) - top, CLOSEST) * 1.6;
    const [x, y] = [(left + Math.max(...xs)) / 2, (top + Math.max(...ys)) / 2];
    this.box = [x - size / 2, y - size / 2, size, size];
    this.show();
  }

  /** Has a point in the middle, unless it is seen already. */
  lookAt([x, y]) {
    const [left, top, width, height] = this.box;
    const far = [x - left - width / 2, y - top - height / 2].map(Math.abs);
    const { clientWidth, clientHeight } = this.element;
    if (far[0] * this.scale < clientWidth / 2 - EDGE && far[1] * this.scale < clientHeight / 2 - EDGE) return;
    this.box = [x - width / 2, y - height / 2, width, height];
    this.show();
  }

  down(event) {
    this.pointers.set(event.pointerId, [event.clientX, event.clientY]);
    this.moved = false;
  }

  move(event) {
    const before = this.pointers.get(event.pointerId);
    if (!before) return;
    const others = [...this.pointers].filter(([id]) => id !== event.pointerId).map(([, point]) => point);
    const [x, y] = [event.clientX, event.clientY];
    if (Math.hypot(x - before[0], y - before[1]) > 2) this.moved = true;
    if (others.length) {
      const [far, near] = [before, [x, y]].map((point) => Math.hypot(point[0] - others[0][0], point[1] - others[0][1]));
      this.zoom(far / Math.max(1, near), { clientX: (x + others[0][0]) / 2, clientY: (y + others[0][1]) / 2 });
    } else {
      this.box[0] -= (x - before[0]) / this.scale;
      this.box[1] -= (y - before[1]) / this.scale;
      this.show();
    }
    this.pointers.set(event.pointerId, [x, y]);
  }

  key(event) {
    const moves = { ArrowLeft: [-0.1, 0], ArrowRight: [0.1, 0], ArrowUp: [0, -0.1], ArrowDown: [0, 0.1] };
    if (moves[event.key]) this.pan(...moves[event.key]);
    else if (event.key === '+' || event.key === '=') this.zoom(1 / STEP);
    else if (event.key === '-') this.zoom(STEP);
    else if (event.key === '0') this.all();
    else return;
    event.preventDefault();
  }
}
