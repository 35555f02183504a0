// An axis or a group on the page: its marks, its states, its panels, and the outputs of its blocks.

class Section extends Curves {
  constructor(told) {
    super(told);
    this.shown = true;
    this.all = told.panels;
    this.other = told.other ? new Curves(told.other) : null;
    this.rows = 0;
    this.element = add(document.querySelector("main"), "section");
    this.head = add(this.element, "h2", told.title);
    this.read = add(this.head, "span");
    add(this.element, "p", told.text).className = "spoken";
    this.plot = add(this.element, "div");
    this.plot.className = "plot";
    this.plot.setAttribute("aria-hidden", "true");
    this.top = add(this.plot, "canvas");
    this.lanes = told.blocks.map(block => new Lanes(this, block));
    this.canvas = add(this.plot, "canvas");
    for (const name of ["cursor", "pin", "chosen"]) (this[name] = add(this.plot, "div")).className = name;
    this.stats = add(this.element, "p");
    this.stats.className = "stats";
    this.dots = Object.keys(told.lines || {}).map(name => this.dot(name));
  }

  // The dot of a line at the cursor.
  dot(name) {
    const dot = add(this.plot, "div");
    dot.className = "dot";
    dot.style.background = `var(--${COLOUR_OF[name] || name})`;
    return {name, dot, panel: {reported: "position", reportedVelocity: "velocity"}[name] || name};
  }

  // The panels that are asked for.
  get panels() {
    return this.all.filter(panel => panel.name !== "following" || isChecked("following"));
  }

  set panels(_) {}

  draw() {
    this.across = this.plot.clientWidth - left - right;
    const placed = this.placeMarks(), base = this.rows * ROW + 2;
    const top = ready(this.top, this.plot.clientWidth, base + (this.strip.length ? STRIP : 0));
    if (this.strip.length) this.drawStrip(top, base);
    for (const mark of placed) this.drawMark(top, mark);
    for (const lanes of this.lanes) lanes.draw(placed);
    this.drawPanels(placed);
  }

  drawPanels(placed) {
    const high = this.panels.reduce((sum, panel) => sum + panel.height + gap, 0);
    const pen = ready(this.canvas, this.plot.clientWidth, high + 22);
    this.toY = {};
    let y = 0;
    for (const panel of this.panels) {
      this.drawPanel(pen, panel, y + gap);
      this.drawGuides(pen, placed, narrow ? y + gap : y, y + gap + panel.height);
      y += panel.height + gap;
    }
    this.drawTime(pen, y);
  }

  // Where the marks stand, from one height to another.
  drawGuides(pen, placed, top, bottom) {
    if (placed.length > GUIDES) return;
    pen.globalAlpha = 0.55;
    for (const mark of placed) line(pen, mark.x, top, mark.x, bottom, theme[mark.kind], [2, 3]);
    pen.globalAlpha = 1;
  }

  // The marks of the window with their rows, of which a section keeps the most that it had.
  placeMarks() {
    const pen = this.canvas.getContext("2d"), ends = [], placed = [];
    const marks = this.marks.map(mark => [mark[0] - data.first + 1, ...mark.slice(1)])
      .filter(([at]) => from <= at && at <= to);
    const rows = marks.length <= GUIDES ? ROWS : 1;
    pen.font = FONT;
    for (const [at, kind, label, count] of marks) {
      const x = this.x(at), text = label + (count > 1 ? ` and ${count - 1} more` : "");
      const wide = 14 + pen.measureText(text).width, leftwards = x + wide > this.across + left + right;
      const start = leftwards ? x - wide : x - 6, end = leftwards ? x + 8 : x + wide;
      let row = 0;
      while (row < rows && ends[row] > start) row++;
      if (row < rows) ends[row] = end;
      placed.push({x, kind, text: row < rows ? text : "", leftwards, row});
    }
    const needed = placed.reduce((most, mark) => Math.max(most, mark.row + 1), this.marks.length ? 1 : 0);
    this.rows = Math.max(this.rows, needed);
    return placed;
  }

  drawMark(pen, mark) {
    const y = mark.row * ROW + ROW / 2, aside = mark.leftwards ? -8 : 8;
    shape(pen, mark.kind, mark.x, y);
    if (mark.text)
      words(pen, mark.text, mark.x + aside, y + 4, theme.ink, mark.leftwards ? "right" : "left");
  }

  drawStrip(pen, y) {
    words(pen, "state", left - 8, y + 13, theme.muted, "right");
    for (const [start, end, name, error] of this.strip) {
      if (end <= from || start >= to) continue;
      const x = this.x(Math.max(start, from)), wide = this.x(Math.min(end, to)) - x;
      pen.fillStyle = data.colours[name];
      pen.fillRect(x, y, wide, STRIP);
      const text = (error ? [`${name} ${error}`, `error ${error}`, String(error)] : [name])
        .find(choice => pen.measureText(choice).width + 8 < wide);
      if (text)
        words(pen, text, x + 5, y + 13, name === "ContinuousMotion" ? "#ffffff" : "#101418");
    }
  }

  drawPanel(pen, panel, y) {
    const fit = document.getElementById("fit").checked, [begin, end] = this.window();
    const limits = panel.limits.flatMap(limit => limit.slice(2));
    const [low, high] = viewOf(...this.shownRange(panel, fit, begin, end), limits);
    const clamp = value => Math.min(Math.max(value, low), high);
    const toY = value => y + panel.height * (1 - (clamp(value) - low) / (high - low));
    this.toY[panel.name] = toY;
    this.drawBands(pen, panel, y, toY);
    this.drawGrid(pen, panel, y, toY, low, high);
    this.drawLimits(pen, panel, y, toY, low, high);
    for (const [x, wide] of this.errors()) hatch(pen, x, y, Math.max(wide, 1), panel.height);
    pen.save();
    pen.beginPath();
    pen.rect(left, y - 1, this.across, panel.height + 2);
    pen.clip();
    if (this.other) this.drawOther(pen, panel, toY);
    for (const name of drawnWith(panel.name))
      if (this.lines[name]) this.drawLine(pen, name, begin, end, toY, [4, 3]);
    this.drawLine(pen, panel.name, begin, end, toY, []);
    pen.restore();
    pen.strokeStyle = theme.limit;
    pen.lineWidth = 1;
    pen.strokeRect(left, y, this.across, panel.height);
  }

  // From where to where a panel goes: with the lines of the second trace, and of a following error
  // at least an increment.
  shownRange(panel, fit, begin, end) {
    let [low, high] = fit ? this.range(panel.name, begin, end) :
      this.range(panel.name, 0, this.lines.position[0].length);
    if (this.other && this.other.lines[panel.name]) {
      const [least, most] = this.other.range(panel.name, ...(fit ? this.other.window() :
        [0, this.other.lines.position[0].length]));
      [low, high] = [Math.min(low, least), Math.max(high, most)];
    }
    return panel.name === "following" ? [low, Math.max(high, low + this.increment)] : [low, high];
  }

  // The same line of the second trace.
  drawOther(pen, panel, toY) {
    if (!this.other.lines[panel.name]) return;
    this.other.across = this.across;
    this.other.drawLine(pen, panel.name, ...this.other.window(), toY, [2, 2], theme.overlay);
  }

  drawBands(pen, panel, y, toY) {
    pen.fillStyle = panel.limits.length ? theme.panel : theme.band;
    pen.fillRect(left, y, this.across, panel.height);
    for (const [place, [, , least, greatest]] of [...panel.limits.entries()].reverse()) {
      pen.fillStyle = place ? theme.outer : theme.band;
      pen.fillRect(left, toY(greatest), this.across, toY(least) - toY(greatest));
    }
  }

  drawGrid(pen, panel, y, toY, low, high) {
    for (const value of ticks(low * panel.factor, high * panel.factor, panel.height / 17)) {
      const at = toY(value / panel.factor);
      line(pen, left, at, left + this.across, at, value ? theme.grid : theme.limit, [], value ? 1 : 0.7);
      words(pen, numberText(value), left - 8, at + 4, theme.muted, "right");
    }
    for (const [cycles] of timeTicks(this.across))
      line(pen, this.x(cycles), y, this.x(cycles), y + panel.height, theme.grid);
    if (!narrow) turned(pen, [[16, panel.name, theme.ink], [31, `[${panel.unit}]`, theme.muted]], y + panel.height / 2);
  }

  // The limits as lines, with their words at the right, or above a panel on a narrow screen.
  drawLimits(pen, panel, y, toY, low, high) {
    const told = [];
    for (const [leastName, greatestName, least, greatest] of panel.limits)
      for (const [name, value] of [[greatestName, greatest], [leastName, least]]) {
        const inside = low <= value && value <= high;
        if (inside) line(pen, left, toY(value), left + this.across, toY(value), theme.limit, [6, 4]);
        told.push([toY(value), `${name} ${numberText(value * panel.factor)}` +
          (inside ? "" : value > high ? " ↑" : " ↓")]);
      }
    if (narrow) {
      words(pen, `${panel.name} [${panel.unit}]`, 4, y - 6, theme.ink);
      words(pen, told.map(([, text]) => text).join(", "), left + this.across, y - 6, theme.muted, "right");
      return;
    }
    told.sort((one, other) => one[0] - other[0]);
    apart(told.map(([at]) => at), y + 9, y + panel.height).forEach((at, place) =>
      words(pen, told[place][1], left + this.across + 6, at, theme.muted));
  }

  // The spans with an error in the window: from where on, how wide, and its number.
  errors() {
    return this.strip.filter(([start, end, , error]) => error && end > from && start < to)
      .map(([start, end, , error]) => [this.x(Math.max(start, from)),
        this.x(Math.min(end, to)) - this.x(Math.max(start, from)), error]);
  }

  drawTime(pen, y) {
    for (const [cycles, text] of timeTicks(this.across)) {
      line(pen, this.x(cycles), y, this.x(cycles), y + 4, theme.limit);
      words(pen, text, this.x(cycles), y + 16, theme.muted, "center");
    }
    if (narrow) words(pen, data.timeName, 4, y + 16, theme.muted);
    else words(pen, data.timeName, left + this.across + 40, y + 16, theme.muted);
  }
}

// Adds an element with a text to another.
function add(parent, kind, text = "") {
  const element = parent.appendChild(document.createElement(kind));
  element.textContent = text;
  return element;
}

// Words that are turned, at these places from the left.
function turned(pen, told, middle) {
  for (const [x, text, colour] of told) {
    pen.save();
    pen.translate(x, middle);
    pen.rotate(-Math.PI / 2);
    words(pen, text, 0, 0, colour, "center");
    pen.restore();
  }
}
