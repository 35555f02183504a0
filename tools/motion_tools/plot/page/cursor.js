// The cursor at the end of a cycle, the pinned one, and what both show of a section.

// Where the pointer is: a section and a place on the screen, or the cycles before it; null where it
// is beside all. And the cycles before the pinned cursor, null without one.
let pointed = null, pinned = null;

// The place in a section at which a pointer is, counted in cycles.
function placeOf(section, x) {
  const begin = section.plot.getBoundingClientRect().left + left;
  return Math.min(Math.max(from + (x - begin) / section.across * (to - from), from), to);
}

// The cycles before the cursor: whole ones, as it stands at the end of a cycle; null without one.
function cursorAt() {
  if (pointed === null || !data.cycles) return null;
  const at = pointed.section ? placeOf(pointed.section, pointed.x) : pointed.at;
  return data.width > 1 ? at : Math.min(Math.max(Math.round(at), 1), data.cycles);
}

// The cycle, counted from 0, that ends at a place or holds it.
const cycleOf = at => Math.min(Math.max(data.width > 1 ? Math.floor(at) : at - 1, 0), data.cycles - 1);

// Shows the cursors where they are, also where what lies under them has changed.
function pointAnew() {
  const at = cursorAt();
  for (const section of sections) {
    stand(section, section.cursor, at);
    stand(section, section.pin, pinned);
    showDots(section, at);
    section.read.textContent = at === null ? "" : reading(section, at);
    section.stats.textContent = at === null || pinned === null ? "" : between(section, at);
  }
  plane.draw();
  together.draw();
  events.mark(at);
}

// Puts a cursor's line to a place, if that is shown.
function stand(section, cursor, at) {
  const shown = at !== null && from <= at && at <= to;
  cursor.style.display = shown ? "block" : "none";
  if (shown) cursor.style.left = section.x(at) + "px";
}

// A dot on each line at the cursor, and on what the drive reported at the beginning of its cycle;
// none where a column has more than a cycle, or no value.
function showDots(section, at) {
  for (const {name, dot, panel} of section.dots) {
    const value = at === null || section.width > 1 ? null : section.lines[name][0][cycleOf(at)];
    const x = name === "reported" ? at - 1 : at;
    const shown = value !== null && from <= x && x <= to && panel in section.toY &&
      (!name.startsWith("reportedV") || isChecked("following"));
    dot.style.display = shown && section.shown ? "block" : "none";
    if (!shown || !section.shown) continue;
    dot.style.left = section.x(x) + "px";
    dot.style.top = section.canvas.offsetTop + section.toY[panel](value) + "px";
  }
}

// What a section shows at a place, with what lies between the pinned cursor and it.
function reading(section, at) {
  const cycle = cycleOf(at), place = Math.floor(cycle / section.width);
  const first = place * section.width + data.first;
  const last = Math.min(first + section.width, data.first + data.cycles) - 1;
  const found = section.strip.find(([start, end]) => start <= cycle && cycle < end);
  const parts = [(first === last ? `cycle ${first}` : `cycles ${first} to ${last}`) + timeBetween(at)];
  if (found) parts.push(found[2] + (found[3] ? " error " + found[3] : ""));
  for (const panel of section.panels) parts.push(valueAt(section, panel.name, panel, place));
  if (section.lines && section.lines.reported)
    parts.push(valueAt(section, "reported", section.panels[0], place));
  const near = section.marks.filter(mark => Math.abs(section.x(mark[0] - data.first + 1) - section.x(at)) < 5);
  if (near.length) parts.push(`after cycle ${near[0][0]}: ` + near.map(mark => mark[4]).join("; "));
  return parts.join("  ·  ");
}

// The cycles, and the time, from the pinned cursor to a place.
function timeBetween(at) {
  if (pinned === null) return "";
  const cycles = at - pinned, time = data.timeName.match(/\[(.*)\]/);
  return ` (Δ ${exactText(+cycles.toPrecision(10))}` +
    (time ? `, ${exactText(+(cycles * data.timeFactor).toPrecision(10))} ${time[1]})` : ")");
}

// A value at a place, or the least and the greatest of its column, with the difference from the
// pinned cursor.
function valueAt(section, name, panel, place) {
  const [least, greatest = least] = section.lines[name];
  if (least[place] === null) return `no ${name}`;
  const low = exactText(least[place] * panel.factor), high = exactText(greatest[place] * panel.factor);
  const before = pinned === null || section.width > 1 ? null : least[cycleOf(pinned)];
  const between = before === null ? "" :
    ` (Δ ${exactText(+((least[place] - before) * panel.factor).toPrecision(12))})`;
  return `${name} ${low === high ? low : low + " to " + high}${between} ${panel.unit}`;
}

// The least, the greatest and the mean value of each line between the two cursors.
function between(section, at) {
  if (!section.lines) return "";
  const [first, last] = [cycleOf(pinned), cycleOf(at)].sort((one, other) => one - other)
    .map(cycle => Math.floor(cycle / section.width));
  const parts = section.panels.map(panel => {
    const [least, greatest = least] = section.lines[panel.name], places = [];
    for (let place = first; place <= last; place++) if (least[place] !== null) places.push(place);
    if (!places.length) return `no ${panel.name}`;
    const low = places.reduce((found, place) => Math.min(found, least[place]), Infinity);
    const high = places.reduce((found, place) => Math.max(found, greatest[place]), -Infinity);
    const mean = places.reduce((sum, place) => sum + (least[place] + greatest[place]) / 2, 0) / places.length;
    const told = value => exactText(+(value * panel.factor).toPrecision(7));
    return `${panel.name} least ${told(low)}, greatest ${told(high)}, mean ${told(mean)} ${panel.unit}`;
  });
  return "between the cursors: " + parts.join("  ·  ");
}

// Pins a second cursor at a place, or takes it away where it stands there.
function pin(at) {
  const whole = data.width > 1 || at === null ? at : Math.min(Math.max(Math.round(at), 1), data.cycles);
  pinned = whole === null || pinned !== null && Math.abs(whole - pinned) <= 5 * (to - from) / 1000 ? null : whole;
  pointAnew();
}

// Puts the cursor to a place, into view, and says what stands there to readers of screens.
function goTo(at) {
  pointed = {at: Math.min(Math.max(at, data.width > 1 ? 0 : 1), data.cycles)};
  if (pointed.at < from || pointed.at > to) show(pointed.at - (to - from) / 2, pointed.at + (to - from) / 2);
  pointAnew();
  document.getElementById("told").textContent = sections.filter(section => section.shown)
    .map(section => `${section.title}: ${reading(section, cursorAt())}`).join(". ");
}

// Goes to the next call or error of the axes and groups that are shown, or to the one before.
function jump(isError, onwards) {
  const now = cursorAt() ?? (onwards ? 0 : data.cycles + 1), stops = sections.filter(section => section.shown)
    .flatMap(section => isError ? errorsOf(section) : section.marks.map(mark => mark[0] - data.first + 1));
  const found = stops.filter(at => onwards ? at > now : at < now);
  if (found.length) goTo(onwards ? Math.min(...found) : Math.max(...found));
  else document.getElementById("told").textContent = `no ${isError ? "error" : "call"} ${onwards ? "after" : "before"}`;
}

// Where errors begin in a section: in its rows, and in what calls of its blocks showed.
function errorsOf(section) {
  const rows = section.strip.filter(([, , , error]) => error).map(([start]) => start + 1);
  return rows.concat(section.marks.filter(mark => mark[1] === "Error").map(mark => mark[0] - data.first + 1));
}
