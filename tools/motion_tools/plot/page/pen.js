// What the page draws with: colours, numbers, scales, words and shapes.

const data = /*DATA*/;
const ROW = 16, STRIP = 18, ROWS = 6, GUIDES = 40, LANE = 17;
const FONT = "11px 'DejaVu Sans',Verdana,Arial,sans-serif";
const KINDS = ["Call", "Done", "CommandAborted", "Error"];
// How the lines of a column go on: the setpoint begins anew, isn't driven, was moved by a Home.
const BROKEN = 1, LOOSE = 2, MOVED = 4;
// The cycles that are shown, the colours, and the margins beside the panels and above each.
let from = 0, to = Math.max(data.cycles, 1), theme = {}, left, right, gap, narrow;

// The margins for a width: on a narrow screen the names and limits of a panel stand above it.
function layOut(width) {
  narrow = width < 640;
  [left, right, gap] = narrow ? [64, 12, 22] : [112, 150, 8];
}

// The colours of the page as it is shown now.
function readTheme() {
  const style = getComputedStyle(document.documentElement);
  for (const name of ["page", "panel", "band", "outer", "ink", "muted", "grid", "limit", "position",
    "reported", "velocity", "acceleration", "jerk", "overlay", "error", ...KINDS])
    theme[name] = style.getPropertyValue("--" + name).trim();
}

// A number as it is shown.
function numberText(value) {
  if (!value) return "0";
  const text = String(+value.toPrecision(10));
  if (text.replace("-", "").length <= 7) return text.replace("e+", "e");
  const short = String(+value.toPrecision(5)).replace("e+", "e");
  const power = (+value.toPrecision(5)).toExponential().replace("e+", "e");
  return power.length < short.length ? power : short;
}

// A number exactly, for the cursor.
const exactText = value => value ? String(+value.toPrecision(15)) : "0";

// Round numbers from low to high, about this many.
function ticks(low, high, count) {
  let step = 10 ** Math.floor(Math.log10((high - low) / count));
  step *= [1, 2, 5, 10].find(times => (high - low) / (step * times) <= count) || 10;
  const found = [];
  for (let place = Math.ceil(low / step - 1e-9); place * step <= high + step * 1e-9; place++)
    found.push(place * step);
  return found;
}

// From where to where a panel shows, of the least and greatest value and the limits.
function viewOf(least, greatest, limits) {
  let low = least, high = greatest;
  const moved = greatest - least, beyond = limit => Math.max(least - limit, limit - greatest);
  for (const limit of [...limits].sort((one, other) => beyond(one) - beyond(other)))
    if (data.whole || !moved || Math.max(high, limit) - Math.min(low, limit) <= 4 * moved) {
      low = Math.min(low, limit);
      high = Math.max(high, limit);
    }
  const margin = Math.max((high - low) * 0.07, 1e-12);
  return [low - margin, high + margin];
}

// Where words are written for places from above, so that none touches another and all stay between
// top and bottom.
function apart(places, top, bottom) {
  const lines = [];
  for (const at of places) lines.push(Math.max(at + 4, top, lines.length ? lines[lines.length - 1] + 12 : top));
  for (let place = lines.length; place-- > 0;)
    lines[place] = Math.min(lines[place], place + 1 < lines.length ? lines[place + 1] - 12 : bottom);
  return lines;
}

// A canvas that is ready to draw on, for a width and a height in CSS pixels.
function ready(canvas, width, height) {
  const ratio = window.devicePixelRatio || 1;
  canvas.width = Math.round(width * ratio);
  canvas.height = Math.round(height * ratio);
  canvas.style.height = height + "px";
  const pen = canvas.getContext("2d");
  pen.setTransform(ratio, 0, 0, ratio, 0, 0);
  pen.font = FONT;
  pen.lineJoin = "round";
  return pen;
}

function words(pen, text, x, y, colour, align = "left") {
  pen.fillStyle = colour;
  pen.textAlign = align;
  pen.fillText(text, x, y);
}

function line(pen, x, y, toX, toY, colour, dashes = [], width = 1) {
  pen.strokeStyle = colour;
  pen.lineWidth = width;
  pen.setLineDash(dashes);
  pen.beginPath();
  pen.moveTo(x, y);
  pen.lineTo(toX, toY);
  pen.stroke();
  pen.setLineDash([]);
}

function shape(pen, kind, x, y) {
  pen.save();
  pen.translate(x, y);
  pen.fillStyle = theme[kind];
  pen.fill(new Path2D("M0 0" + data.shapes[kind]));
  pen.restore();
}

// Fills a box with the hatching of an error.
function hatch(pen, x, y, width, height) {
  pen.save();
  pen.beginPath();
  pen.rect(x, y, width, height);
  pen.clip();
  pen.globalAlpha = 0.13;
  pen.fillStyle = theme.error;
  pen.fillRect(x, y, width, height);
  pen.globalAlpha = 0.55;
  const begin = Math.floor((x - height) / 11) * 11;
  for (let at = begin; at < x + width; at += 11)
    line(pen, at, y + height, at + height, y, theme.error, [], 2.5);
  pen.restore();
}

// Where the time axis has its numbers, as cycles, and these.
function timeTicks(across) {
  const before = data.first - 1, factor = data.timeFactor;
  return ticks((before + from) * factor, (before + to) * factor, Math.max(across / 90, 2))
    .filter(mark => factor !== 1 || Number.isInteger(mark))
    .map(mark => [mark / factor - before, exactText(+mark.toPrecision(10))]);
}
