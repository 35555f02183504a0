// What the page does with buttons, keys, a pointer and fingers.

// The least cycles that are shown: a few, or a few columns of a long trace.
const LEAST = Math.min(data.width > 1 ? 8 * data.width : 4, Math.max(data.cycles, 1));
const sections = data.sections.map(told => new Section(told));
const plane = new Plane(sections.filter(section => section.lines));
const together = new Together(sections.filter(section => section.lines));
const events = new Events(sections);

function drawLegend() {
  const legend = document.getElementById("legend");
  legend.replaceChildren();
  const put = (text, draw, always = false) => {
    if (!always && !data.legend.includes(text)) return;
    const item = add(legend, "span"), canvas = add(item, "canvas");
    canvas.style.width = "20px";
    draw(ready(canvas, 20, 14));
    item.append(text);
  };
  const box = colour => pen => {
    pen.fillStyle = colour;
    pen.fillRect(0, 1, 20, 12);
    pen.strokeStyle = theme.limit;
    pen.strokeRect(0.5, 1.5, 19, 11);
  };
  const stroke = (name, dashes = []) => pen => line(pen, 0, 7, 20, 7, theme[name], dashes, 1.6);
  put("setpoint", stroke("position"));
  put("not driven", stroke("position", [1.5, 3]));
  put("reported by the drive", stroke("reported", [4, 3]));
  put("velocity", stroke("velocity"));
  put("acceleration", stroke("acceleration"));
  put("jerk", stroke("jerk"));
  if (data.overlay) put(data.overlay, stroke("overlay", [2, 2]), true);
  if (isChecked("following")) put("following error", stroke("reported"), true);
  put("limit", stroke("limit", [6, 4]));
  put("within limits", box(theme.band));
  put("beyond", box(theme.panel));
  put("error", pen => hatch(pen, 0, 1, 20, 12));
  for (const kind of KINDS) put(kind, pen => shape(pen, kind, 10, 7));
  for (const state of Object.keys(data.colours)) put(state, box(data.colours[state]));
}

function drawAll() {
  readTheme();
  layOut(document.querySelector("main").clientWidth);
  drawLegend();
  for (const section of sections) {
    section.element.hidden = !section.shown;
    if (section.shown) section.draw();
  }
  document.getElementById("shown").textContent =
    `cycles ${Math.floor(from) + data.first} to ${Math.min(Math.ceil(to), data.cycles) + data.first - 1}` +
    ` of ${data.first} to ${data.first + data.cycles - 1}` + (data.width > 1 ?
      `, the least and greatest values of ${data.width} at a time` : "");
  pointAnew();
}

let waiting = false;
function drawSoon() {
  if (waiting) return;
  waiting = true;
  requestAnimationFrame(() => { waiting = false; drawAll(); });
}

// Shows the cycles from one place to another, at least a few, within the trace.
function show(begin, end) {
  const all = Math.max(data.cycles, 1), wide = Math.min(Math.max(end - begin, LEAST), all);
  from = Math.min(Math.max((begin + end - wide) / 2, 0), all - wide);
  to = from + wide;
  drawSoon();
}

function zoom(times, at = (from + to) / 2) {
  show(at - (at - from) * times, at + (to - at) * times);
}

const deeds = {
  in: () => zoom(0.5), out: () => zoom(2), all: () => show(0, data.cycles),
  left: () => show(from - (to - from) / 4, to - (to - from) / 4),
  right: () => show(from + (to - from) / 4, to + (to - from) / 4),
  call: () => jump(false, true), callBefore: () => jump(false, false),
  error: () => jump(true, true), errorBefore: () => jump(true, false),
  pin: () => pin(cursorAt()), unpin: () => pin(null),
  next: () => goTo((cursorAt() ?? from) + data.width), before: () => goTo((cursorAt() ?? to) - data.width)
};
const keys = {"+": "in", "=": "in", "-": "out", "0": "all", ArrowLeft: "left", ArrowRight: "right",
  c: "call", C: "callBefore", e: "error", E: "errorBefore", p: "pin", Escape: "unpin",
  ".": "next", ",": "before"};

for (const button of document.querySelectorAll("button")) button.onclick = deeds[button.dataset.do];
for (const id of ["fit", "outputs", "following", "bits"]) document.getElementById(id).onchange = drawSoon;
for (const id of ["outputs", "following", "bits"]) document.getElementById(id).checked = data[id];
document.getElementById("bitsChoice").hidden = !data.bits;
document.getElementById("followingChoice").hidden = !data.legend.includes("reported by the drive");
addEventListener("keydown", event => {
  if (!keys[event.key] || event.ctrlKey || event.metaKey || event.altKey ||
    ["SELECT", "INPUT"].includes(event.target.tagName) && event.target.type !== "checkbox") return;
  deeds[keys[event.key]]();
  event.preventDefault();
});
addEventListener("resize", drawSoon);
matchMedia("(prefers-color-scheme: dark)").addEventListener("change", drawSoon);

// Printed, the page has a sheet's width and light colours.
addEventListener("beforeprint", () => {
  document.documentElement.classList.add("printed");
  drawAll();
});
addEventListener("afterprint", () => {
  document.documentElement.classList.remove("printed");
  drawAll();
});

// The axes and groups to choose.
for (const section of sections) {
  const label = add(document.getElementById("choice"), "label"), box = add(label, "input");
  box.type = "checkbox";
  box.checked = true;
  box.onchange = () => {
    section.shown = box.checked;
    drawSoon();
  };
  label.append(section.title.split(":")[0]);
}
document.getElementById("choice").hidden = sections.length < 2;

// What a pointer has begun: where, over which cycles, and with which fingers.
let begun = null;
const fingers = new Map();

// Begins anew with the fingers that are down.
function begin(section) {
  begun = fingers.size ? {section, from, to, at: [...fingers.values()].map(x => placeOf(section, x)),
    places: [...fingers.values()], moved: fingers.size > 1} : null;
}

// Marks the cycles between two places, or none.
function choose(one, other) {
  for (const section of sections) {
    section.chosen.style.display = one === null ? "none" : "block";
    if (one === null) continue;
    section.chosen.style.left = section.x(Math.min(one, other)) + "px";
    section.chosen.style.width = Math.abs(section.x(other) - section.x(one)) + "px";
  }
}

// Fingers move what is shown: one along it, two also its width.
function moveFingers(section) {
  const [one, other] = [...fingers.values()], wide = begun.to - begun.from;
  if (fingers.size === 1) {
    const shift = (begun.places[0] - one) / section.across * wide;
    if (begun.moved) show(begun.from + shift, begun.to + shift);
    return;
  }
  const scale = Math.abs((begun.at[1] - begun.at[0]) / (other - one)) || 1;
  const edge = section.plot.getBoundingClientRect().left + left;
  const start = Math.min(...begun.at) - (Math.min(one, other) - edge) * scale;
  show(start, start + section.across * scale);
}

for (const section of sections) {
  const plot = section.plot;
  plot.onpointerdown = event => {
    if (event.button !== 0) return;
    fingers.set(event.pointerId, event.clientX);
    plot.setPointerCapture(event.pointerId);
    begin(section);
  };
  plot.onpointermove = event => {
    const isMouse = event.pointerType === "mouse";
    if (isMouse) {
      pointed = {section, x: event.clientX};
      pointAnew();
    }
    if (!begun || !fingers.has(event.pointerId)) return;
    fingers.set(event.pointerId, event.clientX);
    begun.moved ||= Math.abs(event.clientX - begun.places[0]) > 5;
    if (isMouse) choose(begun.at[0], placeOf(section, event.clientX));
    else moveFingers(section);
  };
  plot.onpointerup = event => {
    const at = placeOf(section, event.clientX), isMouse = event.pointerType === "mouse";
    fingers.delete(event.pointerId);
    choose(null);
    if (begun && begun.moved && isMouse) show(Math.min(begun.at[0], at), Math.max(begun.at[0], at));
    else if (begun && !begun.moved && isMouse) pin(at);
    else if (begun && !begun.moved) goTo(at);
    const moved = begun && begun.moved;
    begin(section);
    if (begun) begun.moved = moved;
  };
  plot.onpointercancel = event => {
    fingers.delete(event.pointerId);
    begun = null;
    choose(null);
  };
  plot.onpointerleave = event => {
    if (event.pointerType !== "mouse") return;
    pointed = null;
    pointAnew();
  };
  plot.ondblclick = deeds.all;
  plot.addEventListener("wheel", event => {
    if (!event.ctrlKey) return;
    event.preventDefault();
    zoom(event.deltaY > 0 ? 1.25 : 0.8, placeOf(section, event.clientX));
  }, {passive: false});
}
drawAll();
