// What stands in place of the picture: a matrix of entries by prefixes, the links with what they carry, and all entries that the update changes.

// So many entries that change are listed, and so many prefixes of a link are named.
const MOST_ENTRIES = 2000, MOST_PREFIXES = 4;
const VIEWS = { matrix: "entries by prefixes", links: "links", entries: "all changes" };

// The sign for what becomes of packets: beside what became of them under the old rules.
function signOf(fate, old) {
  const sign = { drop: "✕", loop: "↻", either: "◐" }[fate.ends] || (fate.way === null ? "⇄" : fate.way === old.way ? "✓" : "≠");
  return sign + (fate.met === null ? "" : fate.met ? "ʷ" : "!");
}

// The same in words.
function fateText(fate, old) {
  const words = { drop: "dropped", loop: "may come to a switch twice", either: "may arrive or be dropped" }[fate.ends]
    || (fate.way === null ? "arrives by one way or another" : fate.way === old.way ? "arrives" : "arrives by another way");
  const sure = fate.way === null ? words : words.replace("may come", "comes");
  return sure + (fate.met === null ? "" : fate.met ? ", its waypoints met" : ", a waypoint missed");
}

class Views {
  constructor(view) {
    Object.assign(this, { view, update: view.update, survey: view.survey, shown: "picture" });
    this.box = element("views");
    for (const button of document.querySelectorAll("#tabs button")) button.addEventListener("click", () => this.show(button.dataset.view));
  }

  show(name) {
    this.shown = name === "entries" && this.update.alone || name !== "picture" && !VIEWS[name] ? "picture" : name;
    element("map").hidden = this.shown !== "picture";
    element("legend").hidden = this.shown !== "picture";
    this.box.hidden = this.shown === "picture";
    for (const button of document.querySelectorAll("#tabs button")) button.setAttribute("aria-pressed", button.dataset.view === this.shown);
    if (this.shown === "picture") this.view.picture.drawLabels();
    this.draw();
  }

  draw() {
    if (this.shown === "picture") return;
    if (this.shown === "entries") this.fill(String(this.view.position), () => this.entries());
    else {
      this.survey.look(this.view.position);
      const looked = () => [make("p", `Looked at ${this.survey.now.length} of ${this.update.classCount} classes of packets so far ..`, { class: "grey" })];
      this.fill(this.survey.state(), !this.survey.isDone() ? looked : this.shown === "matrix" ? () => this.matrix() : () => this.links());
    }
    if (this.shown === "matrix") this.mark();
  }

  // Shows what is made, unless it is what stands there: `state` is all that it depends on beside what is shown and the filter.
  fill(state, made) {
    const name = `${this.shown} ${state} ${JSON.stringify(this.view.filter.words)}`, { scrollTop, scrollLeft } = this.box;
    if (name === this.filled) return;
    this.filled = name;
    this.box.replaceChildren(...made());
    Object.assign(this.box, { scrollTop, scrollLeft });
  }

  // Marks the field of the chosen packets.
  mark() {
    const before = this.box.querySelector("td.chosen"), now = this.fields && this.fields.get(this.view.class);
    if (before) before.classList.remove("chosen");
    if (now !== undefined) { const cell = this.box.querySelector(`td[data-class="${now}"]`); if (cell) cell.classList.add("chosen"); }
  }

  // What the columns of a table are called: the old rules, the position, and the new ones.
  titles() {
    const { update, view } = this;
    if (update.alone) return ["this configuration"];
    return ["old", update.isRound(view.position) ? `round ${view.position}` : positionText(update, view.position), "new"];
  }

  // ---- entries by prefixes

  matrix() {
    const { update, view } = this, count = update.atoms.length, rows = new Map();
    for (const number of view.listed) {
      const row = Math.floor(number / count);
      if (!rows.has(row)) rows.set(row, new Set());
      rows.get(row).add(number % count);
    }
    if (!rows.size) return [make("p", "No packets are among those that the filter names.")];
    const names = [...rows.keys()].sort((a, b) => a - b), columns = this.columns(names, rows);
    this.fields = new Map();
    const head = `<tr><th class="corner">enters at \\ goes to</th>${columns.map(({ first, last }) => `<th><span>${atomText({ first: update.atoms[first].first, last: update.atoms[last].last })}</span></th>`).join("")}</tr>`;
    const lines = names.map((row) => {
      const it = update.classOf(row * count);
      return `<tr><th>${hostText(update, it.host)} ${it.vlan === 0 ? "untagged" : it.vlan}</th>${columns.map((column) => this.cell(row * count, column, rows.get(row))).join("")}</tr>`;
    });
    const table = make("table", [], { id: "matrix" });
    table.innerHTML = head + lines.join("");
    table.addEventListener("click", (click) => {
      const cell = click.target.closest("td[data-class]");
      if (cell) view.choose({ class: Number(cell.dataset.class) });
    });
    return [make("p", [make("b", this.titles().join(" | ")), ": ", ...this.legend()], { id: "signs" }), table];
  }

  legend() {
    const signs = ["✓ arrives", "≠ arrives by another way than under the old rules", ...this.update.alone ? [] : ["⇄ by one way or another, as the round is carried out", "◐ may arrive or be dropped"], "✕ dropped", "↻ comes to a switch twice",
      "ʷ its waypoints met", "! one missed"];
    return [signs.filter((it) => !this.update.alone || !it.startsWith("≠")).join(", "), ". Red is against the policy; grey is without a demand."];
  }

  // Neighbouring atoms of which the same is said in all rows are one column.
  columns(names, rows) {
    const { update, survey } = this, count = update.atoms.length, columns = [];
    const saying = (atom) => names.map((row) => rows.get(row).has(atom) ? this.saying(row * count + atom) : "").join("|");
    let last = null;
    for (let atom = 0; atom < count; atom++) {
      if (!names.some((row) => rows.get(row).has(atom))) { last = null; continue; }
      const said = saying(atom);
      if (said === last) columns[columns.length - 1].last = atom; else columns.push({ first: atom, last: atom });
      last = said;
    }
    return columns;
  }

  // All that is said of a class: the same for two of them only where also their ways are the same.
  saying(number) {
    const fates = this.survey.of(number), { some } = this.update.duties(this.update.classOf(number));
    return `${fates.map((fate) => `${signOf(fate, fates[0])} ${fate.way === null ? fate.outs.join() : fate.way} ${fate.isWrong}`).join(";")} ${some}`;
  }

  cell(base, { first, last }, own) {
    const { update } = this, at = own.has(first) ? first : null;
    if (at === null) return "<td class=\"none\"></td>";
    const number = base + at, fates = this.survey.of(number), it = update.classOf(number), titles = this.titles();
    for (let atom = first; atom <= last; atom++) this.fields.set(base + atom, number);
    const said = (update.alone ? [fates[0]] : fates).map((fate, which) => ({ fate, text: `${titles[which]}: ${fateText(fate, fates[0])}`, sign: signOf(fate, fates[0]) }));
    const marks = said.map(({ fate, sign }) => `<span class="${fate.isWrong ? "wrong" : fate.ends === "drop" ? "grey" : sign[0] === "✓" ? "" : "new"}">${sign}</span>`).join(" ");
    const kind = [update.duties(it).some ? "" : "free", !update.alone && fates[1].way === null ? "changed" : ""].filter((one) => one).join(" ");
    return `<td data-class="${number}" class="${kind}" title="${classText(update, it)}&#10;${said.map(({ text }) => text).join("&#10;")}">${marks}</td>`;
  }

  // ---- links

  links() {
    const { update, view } = this, loads = this.survey.loads(), none = { counts: [0, 0, 0], atoms: new Set() }, seen = new Set(), rows = [];
    update.names.forEach((name, at) => [...update.ends[at].keys()].sort((a, b) => a - b).forEach((port) => {
      const end = update.ends[at].get(port), out = `${at}:${port}`, back = end.to === undefined ? null : `${end.to}:${end.port}`;
      if (seen.has(out)) return;
      seen.add(out).add(back);
      const there = loads.get(out) || none, here = back === null || back === out ? none : loads.get(back) || none;
      rows.push({ name: `${name}:${port}`, to: back === null ? "hosts" : `${update.names[end.to]}:${end.port}`, there, here, isLink: back !== null, atoms: [...new Set([...there.atoms, ...here.atoms])].sort((a, b) => a - b) });
    }));
    const which = update.alone ? [0] : [0, 1, 2];
    const text = ({ there, here, isLink }, one) => there.counts[one] + here.counts[one] === 0 ? "empty" : isLink ? `${there.counts[one]} →, ${here.counts[one]} ←` : `${there.counts[one]} →`;
    const prefixes = (atoms) => atoms.slice(0, MOST_PREFIXES).map((at) => atomText(update.atoms[at])).join(", ") + (atoms.length > MOST_PREFIXES ? ` and ${atoms.length - MOST_PREFIXES} more` : "");
    const lines = rows.map((row) => {
      const words = make("button", `${row.name} – ${row.to}`, { class: "name", title: "shows only the packets that go over it" });
      words.addEventListener("click", () => view.filterBy(row.name));
      const cells = which.map((one) => make("td", text(row, one), { class: text(row, one) === "empty" ? "grey" : one && text(row, one) !== text(row, 0) ? "new" : "" }));
      return make("tr", [make("td", words), ...cells, make("td", prefixes(row.atoms))], { class: !update.alone && text(row, 0) !== text(row, 2) ? "changed" : "", "data-link": row.name });
    });
    const head = make("tr", ["link", ...this.titles(), "addresses"].map((words) => make("th", words)));
    return [make("p", "How many classes of packets go over each link, in the one direction and in the other; in a round all that may. Yellow where the update changes it."), make("table", [head, ...lines], { id: "linktable" })];
  }

  // ---- all entries that the update changes

  entries() {
    const { update, view } = this, rounds = new Map();
    update.rounds.forEach((changes, at) => { for (const change of changes) {
      const name = `${change.rule.at} ${change.rule.key}`;
      if (!rounds.has(name)) rounds.set(name, { rule: change.rule, moves: [] });
      rounds.get(name).moves.push({ round: at + 1, what: change.what, to: change.rule });
    } });
    const byKey = (tables) => tables.map((table) => new Map(table.map((rule) => [rule.key, rule]))), [old, now] = [byKey(update.old), byKey(update.new)];
    const rows = [...rounds.values()].filter(({ rule }) => this.isAskedFor(rule)).sort((a, b) => a.rule.at - b.rule.at || compareRules(a.rule, b.rule));
    const said = (rule) => rule ? actionText(update, rule) : "none";
    const meanwhile = (moves) => moves.length > 1 ? moves.filter(({ what }) => what !== "delete").slice(0, 1).map(({ to }) => make("div", `meanwhile ${actionText(update, to)}`, { class: "grey" })) : [];
    const lines = rows.slice(0, MOST_ENTRIES).map(({ rule, moves }) => {
      const buttons = moves.flatMap(({ round, what }, at) => {
        const made = make("button", `${round}: ${what}`, { class: "name", title: "goes to this round" });
        made.addEventListener("click", () => view.go(round));
        return [at ? " " : "", made];
      });
      return make("tr", [make("td", view.switchButton(rule.at)), make("td", String(rule.priority)), make("td", matchText(rule)), make("td", said(old[rule.at].get(rule.key)), { class: "was" }),
        make("td", [said(now[rule.at].get(rule.key)), ...meanwhile(moves)], { class: "becomes" }), make("td", buttons)], { class: moves.some(({ round }) => round === view.position) ? "changed" : "" });
    });
    const switches = new Set(rows.map(({ rule }) => rule.at)).size, more = rows.length > MOST_ENTRIES ? ` The first ${MOST_ENTRIES} are listed.` : "";
    return [make("p", `${countText(rows.length, "entry")} at ${countText(switches, "switch")}.${more} Yellow are those of the round that is shown.`),
      make("table", [make("tr", ["switch", "priority", "packets", "old rules", "new rules", "rounds"].map((words) => make("th", words))), ...lines], { id: "entrytable" })];
  }

  // Whether the filter asks for an entry: one of its switches, and addresses that it covers.
  isAskedFor(rule) {
    return this.view.filter.words.every((word) => word.first !== undefined ? word.first <= rule.last && rule.first <= word.last : word.at !== undefined ? word.at === rule.at
      : `${this.update.names[rule.at]} ${matchText(rule)}`.toLowerCase().includes(word.text));
  }
}
