// The lines of an axis, and where they break.

// The colours of lines that have none of their own, and what is drawn with a line in its panel.
const COLOUR_OF = {following: "reported", reportedVelocity: "reported"};
const isChecked = name => document.getElementById(name).checked;
const drawnWith = name => name === "position" ? ["reported"] :
  name === "velocity" && isChecked("following") ? ["reportedVelocity"] : [];

class Curves {
  constructor(told) {
    Object.assign(this, told);
    this.flags = new Uint8Array(told.lines ? told.lines.position[0].length : 0);
    for (const [start, end, flags] of told.breaks || []) this.flags.fill(flags, start, end);
  }

  x(cycles) {
    return left + (cycles - from) / (to - from) * this.across;
  }

  // The columns of the window.
  window() {
    return [Math.max(Math.floor(from / this.width), 0),
      Math.min(Math.ceil(to / this.width), this.lines ? this.lines.position[0].length : 0)];
  }

  // The least and the greatest value that a panel shows of the columns from one to another.
  range(name, begin, end) {
    let low = name === "position" ? Infinity : 0, high = name === "position" ? -Infinity : 0;
    for (const key of [name, ...drawnWith(name)]) {
      if (!this.lines[key]) continue;
      const [least, greatest = least] = this.lines[key];
      for (let place = begin; place < end; place++) {
        if (least[place] === null) continue;
        low = Math.min(low, least[place]);
        high = Math.max(high, greatest[place]);
      }
    }
    if (name === "position" && begin === 0) {
      low = Math.min(low, this.origin);
      high = Math.max(high, this.origin);
    }
    return low > high ? [0, 0] : [low, high];
  }

  // A line from column to column: joined positions; steps of velocity and acceleration; where a
  // pixel or a column has more than a cycle, the least and the greatest value.
  drawLine(pen, name, begin, end, toY, dashes, colour = theme[COLOUR_OF[name] || name]) {
    const [least, greatest = least] = this.lines[name], exact = this.width === 1;
    const pixels = (to - from) / this.across > 1 || !exact;
    pen.strokeStyle = colour;
    pen.lineWidth = name === "reported" ? 1.4 : 1.6;
    pen.setLineDash(dashes);
    pen.beginPath();
    if (pixels) this.rangeLine(pen, name, begin, end, toY);
    else if (name === "position") this.positions(pen, begin, end, toY);
    else if (name === "reported") this.reportedLine(pen, begin, end, toY);
    else this.steps(pen, least, begin, end, toY);
    pen.stroke();
    pen.setLineDash([]);
  }

  // The setpoint of single cycles: joined, and level over a cycle to which no step leads, dotted
  // where the axis isn't driven.
  positions(pen, begin, end, toY) {
    const [values] = this.lines.position;
    for (const loose of [true, false]) {
      for (let place = begin; place < end; place++) {
        const flags = this.flags[place];
        if (Boolean(flags & LOOSE || flags === BROKEN) !== loose) continue;
        const before = flags ? values[place] : place ? values[place - 1] : this.origin;
        pen.moveTo(this.x(place), toY(before));
        pen.lineTo(this.x(place + 1), toY(values[place]));
      }
      if (!loose) return;
      pen.setLineDash([1.5, 3]);
      pen.stroke();
      pen.setLineDash([]);
      pen.beginPath();
    }
  }

  // What a drive reports it reports at the beginning of a cycle.
  reportedLine(pen, begin, end, toY) {
    const [values] = this.lines.reported;
    for (let place = begin; place <= end && place < values.length; place++)
      if (this.flags[place] & MOVED) pen.moveTo(this.x(place), toY(values[place]));
      else pen.lineTo(this.x(place), toY(values[place]));
  }

  // A value that holds over its cycle, with a gap where there is none.
  steps(pen, values, begin, end, toY) {
    for (let place = begin; place < end; place++) {
      if (values[place] === null) continue;
      if (place === begin || values[place - 1] === null) pen.moveTo(this.x(place), toY(values[place]));
      pen.lineTo(this.x(place), toY(values[place]));
      pen.lineTo(this.x(place + 1), toY(values[place]));
    }
  }

  // The least and the greatest value of each pixel; where the line is broken, short level lines
  // stand at the two.
  rangeLine(pen, name, begin, end, toY) {
    const [least, greatest = least] = this.lines[name];
    const breaking = name.startsWith("reported") ? MOVED : BROKEN;
    let last = null;
    for (let place = begin; place < end;) {
      const pixel = Math.floor(this.x(place * this.width)), start = place;
      let low = null, high = null, flags = 0;
      do {
        flags |= this.flags[place];
        if (least[place] === null) continue;
        low = low === null ? least[place] : Math.min(low, least[place]);
        high = high === null ? greatest[place] : Math.max(high, greatest[place]);
      } while (++place < end && Math.floor(this.x(place * this.width)) === pixel);
      const x = this.x((start + place) / 2 * this.width);
      last = low === null ? null : this.joinRange(pen, x, [toY(low), toY(high)], last, flags & breaking);
    }
  }

  // Goes on with a range line to one pixel, and gives where it ends; null where it is broken there.
  joinRange(pen, x, ends, last, broken) {
    if (broken) {
      for (const y of ends) {
        pen.moveTo(x - 0.5, y);
        pen.lineTo(x + 0.5, y);
      }
      return null;
    }
    if (last === null) pen.moveTo(x, ends[0]);
    else if (Math.abs(ends[1] - last) < Math.abs(ends[0] - last)) ends.reverse();
    pen.lineTo(x, ends[0]);
    pen.lineTo(x, ends[1]);
    return ends[1];
  }
}
