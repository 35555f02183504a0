// Two axes in one panel: their positions, and below these their velocities.

class Together {
  constructor(axes) {
    this.axes = axes;
    this.figure = add(document.querySelector("main"), "section");
    this.figure.id = "together";
    document.querySelector("main").prepend(this.figure);
    this.head = add(this.figure, "h2");
    this.canvas = add(this.figure, "canvas");
    this.canvas.setAttribute("role", "img");
    this.choices = ["pairA", "pairB"].map(id => document.getElementById(id));
    const names = axes.map(axis => axis.title.replace("Axis ", ""));
    this.choices.forEach((choice, which) => {
      add(choice, "option", "none").value = "";
      names.forEach((name, place) => add(choice, "option", name).value = place);
      choice.onchange = () => drawSoon();
      const wanted = data.together.length ? names.indexOf(data.together[0][which]) : -1;
      if (wanted >= 0) choice.value = wanted;
    });
    document.getElementById("pairs").hidden = axes.length < 2;
  }

  // Draws both axes in the window, if two are chosen.
  draw() {
    const pair = this.choices.map(choice => choice.value === "" ? null : this.axes[choice.value]);
    this.figure.hidden = !pair[0] || !pair[1];
    if (this.figure.hidden) return;
    this.pair = pair;
    this.head.textContent = pair.map(axis => axis.title.replace("Axis ", "")).join(" and ");
    this.canvas.setAttribute("aria-label", this.head.textContent);
    this.canvas.style.width = "100%";
    const wide = this.figure.clientWidth, pen = ready(this.canvas, wide, 318);
    this.across = wide - left - right;
    this.x = cycles => left + (cycles - from) / (to - from) * this.across;
    this.drawPanel(pen, "position", 0, gap, 150);
    this.drawPanel(pen, "velocity", 1, 2 * gap + 150, 100);
    for (const [cycles, text] of timeTicks(this.across))
      words(pen, text, this.x(cycles), 2 * gap + 266, theme.muted, "center");
    this.drawCursors(pen, gap, 2 * gap + 250);
  }

  // A panel, with one scale where the two have one unit, else one at each side.
  drawPanel(pen, name, place, y, height) {
    const panels = this.pair.map(axis => axis.all[place]);
    const isOne = panels[0].unit === panels[1].unit, colours = [theme.position, theme.reported];
    const views = this.pair.map((axis, which) => {
      const [low, high] = axis.range(name, ...axis.window());
      return [low * panels[which].factor, high * panels[which].factor];
    });
    const all = [Math.min(views[0][0], views[1][0]), Math.max(views[0][1], views[1][1])];
    const shown = views.map(view => viewOf(...(isOne ? all : view), []));
    pen.fillStyle = theme.band;
    pen.fillRect(left, y, this.across, height);
    this.drawScale(pen, shown[0], y, height, true);
    if (!isOne) this.drawScale(pen, shown[1], y, height, false);
    if (!narrow) turned(pen, [[16, name, theme.ink], [31, `[${panels[0].unit}]`, theme.muted]], y + height / 2);
    this.pair.forEach((axis, which) => {
      const [low, high] = shown[which];
      const toY = value => y + height * (1 - (value * panels[which].factor - low) / (high - low));
      pen.save();
      pen.beginPath();
      pen.rect(left, y - 1, this.across, height + 2);
      pen.clip();
      axis.across = this.across;
      axis.drawLine(pen, name, ...axis.window(), toY, which ? [7, 3] : [], colours[which]);
      pen.restore();
      if (place) return;
      line(pen, left + this.across + 8, y + 10 + 16 * which, left + this.across + 30, y + 10 + 16 * which,
        colours[which], which ? [7, 3] : [], 1.8);
      words(pen, `${axis.title.replace("Axis ", "")}${isOne ? "" : ` [${panels[which].unit}]`}`,
        left + this.across + 36, y + 14 + 16 * which, theme.ink);
    });
    pen.strokeStyle = theme.limit;
    pen.lineWidth = 1;
    pen.strokeRect(left, y, this.across, height);
  }

  drawScale(pen, [low, high], y, height, isLeft) {
    for (const value of ticks(low, high, height / 17)) {
      const at = y + height * (1 - (value - low) / (high - low));
      if (isLeft) line(pen, left, at, left + this.across, at, theme.grid);
      words(pen, numberText(value), isLeft ? left - 8 : left + this.across + 6, at + 4, theme.muted,
        isLeft ? "right" : "left");
    }
    if (isLeft)
      for (const [cycles] of timeTicks(this.across))
        line(pen, this.x(cycles), y, this.x(cycles), y + height, theme.grid);
  }

  drawCursors(pen, top, bottom) {
    for (const [at, dashes] of [[cursorAt(), []], [pinned, [4, 3]]])
      if (at !== null && from <= at && at <= to)
        line(pen, this.x(at), top, this.x(at), bottom, theme.ink, dashes);
  }
}
