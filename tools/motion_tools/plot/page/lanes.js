// Lanes of Execute and the outputs of a block, as the standard's timing figures draw them.

// What bits of words are called on a narrow screen.
const SHORT = {CommandAborted: "Aborted", "ready to switch on": "ready", "switched on": "on",
  "operation enabled": "enabled", "voltage enabled": "voltage", "switch on disabled": "disabled",
  "target reached": "reached", "internal limit": "limit", "follows target": "follows",
  "following error": "following", "enable voltage": "voltage", "enable operation": "enable",
  "fault reset": "reset"};

class Lanes {
  constructor(section, told) {
    Object.assign(this, told, {section});
    this.canvas = add(section.plot, "canvas");
  }

  draw(placed) {
    const on = this.shown === "always" || isChecked(this.shown), head = narrow && this.name ? 18 : 0;
    this.canvas.style.display = on ? "block" : "none";
    if (!on) return;
    const rows = narrow || !this.kind ? this.signals.length : Math.max(this.signals.length, 2);
    const height = rows * LANE + (head || gap);
    const pen = ready(this.canvas, this.section.plot.clientWidth, height);
    this.section.drawGuides(pen, placed, head, height);
    const right = left + this.section.across + 20;
    pen.font = "bold " + FONT;
    words(pen, this.name, narrow ? 4 : right, narrow ? 14 : gap + 13, theme.ink);
    const wide = pen.measureText(this.name).width;
    pen.font = FONT;
    words(pen, this.kind, narrow ? wide + 12 : right, narrow ? 14 : gap + 13 + LANE, theme.muted);
    this.signals.forEach(([name, place], row) =>
      this.drawLane(pen, name, place, (head || gap) + row * LANE));
  }

  // A signal: high where it was true, with a stroke where it was both within a column, and a stub
  // after the last cycle.
  drawLane(pen, name, place, y) {
    const colour = theme[this.shown === "always" ? "Done" : KINDS.includes(name) ? name : "muted"], low = y + 14, high = y + 4;
    const begin = this.section.x(from), end = this.section.x(to), stub = to >= data.cycles ? 8 : 0;
    words(pen, narrow && SHORT[name] || name, left - 8, y + 13, theme.muted, "right");
    const spans = [...this.spans(place), [data.cycles, data.cycles, this.value >> place & 1, 0]];
    let level = this.levelBefore(place);
    pen.beginPath();
    pen.moveTo(begin, level ? high : low);
    for (const [start, stop, value, both] of spans) {
      if (stop < from || start > to) continue;
      const x = Math.max(this.section.x(start), begin);
      const until = start === data.cycles ? end + stub : Math.min(this.section.x(stop), end);
      this.step(pen, x, level, value, both && start >= from, high, low);
      pen.lineTo(until, value ? high : low);
      pen.fillStyle = colour;
      pen.globalAlpha = 0.22;
      if (value) pen.fillRect(x, high, until - x, low - high);
      pen.globalAlpha = 1;
      level = value;
    }
    pen.strokeStyle = colour;
    pen.lineWidth = 1.4;
    pen.stroke();
  }

  // Goes from a level to a value at a place, with a stroke where it was both there.
  step(pen, x, level, value, both, high, low) {
    pen.lineTo(x, level ? high : low);
    if (both) {
      pen.lineTo(x, level ? low : high);
      pen.lineTo(x, level ? high : low);
    }
    pen.lineTo(x, value ? high : low);
  }

  // The spans of a signal: from, to, its value, and whether it was the other too.
  spans(place) {
    return this.runs.map(([start, end, at, changed]) => [start, end, at >> place & 1, changed >> place & 1]);
  }

  // The level at the left end: what stood before it.
  levelBefore(place) {
    const before = this.runs.filter(([start]) => start < from).pop();
    return (before ? before[2] : this.before) >> place & 1;
  }
}
