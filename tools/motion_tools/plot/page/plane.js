// Two axes as X over Y: the way that the setpoints of a group's line take.

class Plane {
  constructor(axes) {
    this.axes = axes;
    this.figure = add(document.querySelector("main"), "section");
    this.figure.id = "plane";
    document.querySelector("main").prepend(this.figure);
    this.head = add(this.figure, "h2");
    this.canvas = add(this.figure, "canvas");
    this.canvas.setAttribute("role", "img");
    this.choices = ["planeX", "planeY"].map(id => document.getElementById(id));
    for (const choice of this.choices) {
      add(choice, "option", "none").value = "";
      axes.forEach((axis, place) => add(choice, "option", axis.title.replace("Axis ", "")).value = place);
      choice.onchange = () => drawSoon();
    }
    document.getElementById("planes").hidden = axes.length < 2;
  }

  // Draws the way of the window, if two axes are chosen.
  draw() {
    const [across, up] = this.choices.map(choice => choice.value === "" ? null : this.axes[choice.value]);
    this.figure.hidden = !across || !up;
    if (this.figure.hidden) return;
    this.head.textContent = `${up.title} over ${across.title.replace("Axis ", "")}` +
      (data.width > 1 ? `, the middle of ${data.width} cycles at a time` : "");
    this.canvas.setAttribute("aria-label", this.head.textContent);
    const size = Math.min(this.figure.clientWidth, 480) - 82;
    this.canvas.style.width = size + 82 + "px";
    this.pen = ready(this.canvas, size + 82, size + 52);
    this.pair = [across, up];
    this.scale(size);
    this.drawFrame();
    this.drawWay();
    this.drawDot(pinned, false);
    this.drawDot(cursorAt(), true);
  }

  // A setpoint in the axis's unit, by the column.
  value(axis, place) {
    const [least, greatest = least] = axis.lines.position;
    return (least[place] + greatest[place]) / 2 * axis.panels[0].factor;
  }

  // From where to where both axes go, with one scale where they have one unit.
  scale(size) {
    const [begin, end] = this.pair[0].window();
    this.columns = [begin, end];
    this.views = this.pair.map(axis => {
      const values = Array.from({length: end - begin}, (_, place) => this.value(axis, begin + place));
      const low = values.reduce((least, value) => Math.min(least, value), Infinity);
      const high = values.reduce((most, value) => Math.max(most, value), -Infinity);
      return low < high ? [low, high] : [(low || 0) - 1, (low || 0) + 1];
    });
    const wide = Math.max(...this.views.map(([low, high]) => high - low));
    const isOne = this.pair[0].panels[0].unit === this.pair[1].panels[0].unit;
    this.views = this.views.map(([low, high]) => {
      const half = (isOne ? wide : high - low) * 0.55;
      return [(low + high) / 2 - half, (low + high) / 2 + half];
    });
    this.box = [70, 8, size, size];
  }

  x(value) {
    return this.box[0] + (value - this.views[0][0]) / (this.views[0][1] - this.views[0][0]) * this.box[2];
  }

  y(value) {
    return this.box[1] + (this.views[1][1] - value) / (this.views[1][1] - this.views[1][0]) * this.box[3];
  }

  drawFrame() {
    const pen = this.pen, [x, y, wide, high] = this.box, [across, up] = this.pair;
    pen.fillStyle = theme.band;
    pen.fillRect(x, y, wide, high);
    for (const value of ticks(...this.views[0], 5)) {
      line(pen, this.x(value), y, this.x(value), y + high, theme.grid);
      words(pen, numberText(value), this.x(value), y + high + 15, theme.muted, "center");
    }
    for (const value of ticks(...this.views[1], 6)) {
      line(pen, x, this.y(value), x + wide, this.y(value), theme.grid);
      words(pen, numberText(value), x - 6, this.y(value) + 4, theme.muted, "right");
    }
    pen.strokeStyle = theme.limit;
    pen.strokeRect(x, y, wide, high);
    words(pen, `${across.title.replace("Axis ", "")} [${across.panels[0].unit}]`, x + wide / 2, y + high + 34,
      theme.ink, "center");
    turned(pen, [[14, `${up.title.replace("Axis ", "")} [${up.panels[0].unit}]`, theme.ink]], y + high / 2);
  }

  // The way, broken where a setpoint of one of the two begins anew.
  drawWay() {
    const pen = this.pen, [across, up] = this.pair;
    pen.beginPath();
    for (let place = this.columns[0]; place < this.columns[1]; place++) {
      const to = [this.x(this.value(across, place)), this.y(this.value(up, place))];
      if ((across.flags[place] | up.flags[place]) & BROKEN) pen.moveTo(...to);
      else pen.lineTo(...to);
    }
    pen.strokeStyle = theme.position;
    pen.lineWidth = 1.8;
    pen.stroke();
  }

  // A dot where a cursor stands: full for the cursor, a ring for the pinned one.
  drawDot(at, isFull) {
    if (at === null) return;
    const pen = this.pen, place = Math.floor(cycleOf(at) / this.pair[0].width);
    pen.beginPath();
    pen.arc(this.x(this.value(this.pair[0], place)), this.y(this.value(this.pair[1], place)), 5, 0, 7);
    pen.strokeStyle = pen.fillStyle = theme.ink;
    if (isFull) pen.fill();
    else pen.stroke();
  }
}
