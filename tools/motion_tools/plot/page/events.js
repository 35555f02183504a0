// The events of a trace as a table: calls and results, errors of rows, and edges of switches. A row
// that is chosen puts the cursor to its position.

const MOST_EVENTS = 2000;

class Events {
  constructor(sections) {
    this.all = sections.flatMap(eventsOf).concat(data.edges.map(([cycle, name, edge]) =>
      ({at: cycle - data.first + 1, of: name, kind: "Edge", text: `${name} goes ${edge}`})))
      .filter(event => event.at >= 0 && event.at <= data.cycles)
      .sort((one, other) => one.at - other.at);
    this.body = document.querySelector("#events tbody");
    this.kind = document.getElementById("eventKind");
    this.text = document.getElementById("eventText");
    for (const kind of ["all kinds", ...new Set(this.all.map(event => event.kind))])
      add(this.kind, "option", kind).value = kind === "all kinds" ? "" : kind;
    this.kind.onchange = this.text.oninput = () => this.fill();
    const unit = data.timeName.match(/\[(.*)\]/);
    this.unit = unit ? unit[1] : "";
    document.getElementById("eventTime").textContent = this.unit ? `time [${this.unit}]` : "";
    document.querySelector("#events summary").textContent = `Events (${this.all.length})`;
    this.fill();
  }

  // The events that the filter lets through.
  shown() {
    const wanted = this.text.value.toLowerCase();
    return this.all.filter(event => (!this.kind.value || event.kind === this.kind.value) &&
      `${event.of} ${event.kind} ${event.text}`.toLowerCase().includes(wanted));
  }

  fill() {
    const found = this.shown();
    this.rows = [];
    this.body.replaceChildren();
    for (const event of found.slice(0, MOST_EVENTS)) {
      const row = add(this.body, "tr"), cycle = event.at + data.first - 1;
      row.tabIndex = 0;
      for (const text of [cycle, this.unit ? exactText(+(cycle * data.timeFactor).toPrecision(10)) : "",
        event.of, event.kind, event.text]) add(row, "td", String(text));
      row.children[3].className = event.kind;
      row.onclick = () => goTo(event.at);
      row.onkeydown = pressed => {
        if (pressed.key === "Enter") goTo(event.at);
      };
      this.rows.push([event, row]);
    }
    document.getElementById("eventCount").textContent = `${found.length} of ${this.all.length}` +
      (found.length > MOST_EVENTS ? `, the first ${MOST_EVENTS} are listed` : "");
  }

  // Marks the events at the cursor.
  mark(at) {
    for (const [event, row] of this.rows) row.classList.toggle("now", event.at === at);
  }
}

// The events of an axis or a group.
function eventsOf(section) {
  const of = section.title.split(":")[0];
  const calls = section.marks.map(([cycle, kind, label, count, told]) => ({at: cycle - data.first + 1, of, kind,
    text: told + (count > 1 ? ` and ${count - 1} more` : "")}));
  const errors = section.strip.filter(([, , , error]) => error).map(([start, , name, error]) =>
    ({at: start + 1, of, kind: "Error", text: `${name}, error ${error}`}));
  return calls.concat(errors);
}
