// The picture of the network: its links and switches, the paths and steps of the chosen class, packets, and a walk that goes wrong.

// The colours are those of page.css, which has a light and a dark set.
const COLOURS = Object.fromEntries(["old", "new", "ink", "bad", "mark", "paper", "node", "link", "dim", "grey", "rider", "sheer", "onmark"].map((name) => [name, `var(--${name})`]));
Object.assign(COLOURS, { paleOld: "var(--pale-old)", paleNew: "var(--pale-new)", paleMark: "var(--pale-mark)" });
// How high names beside the switches are on the screen, and how high those in the boxes must be to be read, in pixels.
const LABEL = 11.5, READABLE = 8.5;
// How wide boxes are, from their middle, and how high names in them.
const NARROW = 24, WIDE = 62, NAME = 15;
// The radius of the dot for a switch whose box is too small to be seen, in pixels.
const DOT = 3.5;

class Picture {
  constructor(svg, update, layout) {
    Object.assign(this, { svg, update, layout, unit: layout.size / 20, places: layout.switches, hostPlaces: layout.hosts });
    // Where a name is too long for any box that has room, all of them stand beside the boxes.
    this.isBeside = update.names.some((name) => this.nameSize(name, WIDE) < READABLE);
    this.least = Math.min(NAME, ...update.names.map((name) => this.nameSize(name, this.halfOf(name))));
    this.bends = this.bendsOf();
    this.lines = new Map();
    this.view = null;
    const arrow = (name, colour) => `<marker id="${name}" viewBox="0 0 10 10" refX="8" refY="5" markerWidth="4" markerHeight="4" orient="auto">`
      + `<path d="M0 0L10 5L0 10z" fill="${colour}"/></marker>`;
    const markers = [["mold", COLOURS.old], ["mnew", COLOURS.new], ["mink", COLOURS.ink], ["mbad", COLOURS.bad]].map(([name, colour]) => arrow(name, colour));
    svg.innerHTML = `<defs>${markers.join("")}</defs><g id="bands"></g><g id="links">${this.linkLines()}</g><g id="steps"></g>`
      + `<g id="ports">${this.ports()}</g><g id="walk"></g><g id="nodes">${this.emptyNodes()}</g><g id="labels"></g><g id="riders"></g>`;
    this.parts = Object.fromEntries(["bands", "steps", "walk", "labels", "riders"].map((name) => [name, svg.querySelector(`#${name}`)]));
    update.names.forEach((_, at) => { this.parts[`node${at}`] = svg.querySelector(`#nodes > :nth-child(${at + 1})`); });
    this.filled = new Map();
  }

  // By how much each link bends aside: links between the same two switches, and links that would cross another switch.
  bendsOf() {
    const beside = new Map(), links = [];
    this.update.ends.forEach((ends, at) => ends.forEach((end, port) => { if (end.link !== undefined) (links[end.link] ||= []).push([at, port]); }));
    this.linkEnds = links;
    links.forEach(([[a], [b]], link) => {
      const name = a < b ? `${a} ${b}` : `${b} ${a}`;
      if (!beside.has(name)) beside.set(name, []);
      beside.get(name).push(link);
    });
    const bends = links.map(() => 0);
    for (const same of beside.values()) {
      const [[a], [b]] = links[same[0]], through = a !== b && this.places.some((place, at) => at !== a && at !== b && this.isThrough(place, a, b));
      same.forEach((link, at) => { bends[link] = (links[link][0][0] < links[link][1][0] ? 1 : -1) * ((at - (same.length - 1) / 2) * 34 + (through ? 55 : 0)); });
    }
    return bends;
  }

  isThrough([x, y], a, b) {
    const [[x0, y0], [x1, y1]] = [this.places[a], this.places[b]], dx = x1 - x0, dy = y1 - y0, length = dx * dx + dy * dy;
    const part = ((x - x0) * dx + (y - y0) * dy) / length;
    return part > 0 && part < 1 && Math.hypot(x0 + part * dx - x, y0 + part * dy - y) < 26 * this.unit;
  }

  // The points of the line from a port of a switch to what is there. They are kept, since they never change.
  line(at, port) {
    if (!this.lines.has(`${at} ${port}`)) this.lines.set(`${at} ${port}`, this.lineOf(at, port));
    return this.lines.get(`${at} ${port}`);
  }

  lineOf(at, port) {
    const end = this.update.ends[at].get(port), from = this.places[at];
    if (end.host !== undefined) return this.clear([from, this.hostPlaces[end.host]], at, null);
    if (end.to === at) {
      const points = [], turn = this.linkEnds[end.link][0][1] === port ? 1 : -1;
      for (let step = 0; step <= 24; step++) {
        const angle = Math.PI / 2 + turn * step / 24 * 2 * Math.PI;
        points.push([from[0] + 22 * this.unit * Math.cos(angle), from[1] - 30 * this.unit + 26 * this.unit * Math.sin(angle)]);
      }
      return this.clear(points, at, null);
    }
    const bend = this.bends[end.link] * this.unit * (this.linkEnds[end.link][0][0] === at ? 1 : -1), to = this.places[end.to];
    if (!bend) return this.clear([from, to], at, end.to);
    const length = Math.hypot(to[0] - from[0], to[1] - from[1]), points = [];
    const cx = (from[0] + to[0]) / 2 + 2 * bend * (to[1] - from[1]) / length, cy = (from[1] + to[1]) / 2 - 2 * bend * (to[0] - from[0]) / length;
    for (let step = 0; step <= 24; step++) {
      const t = step / 24;
      points.push([0, 1].map((axis) => (1 - t) ** 2 * from[axis] + 2 * t * (1 - t) * [cx, cy][axis] + t * t * to[axis]));
    }
    return this.clear(points, at, end.to);
  }

  // The part of a line outside of the boxes of its switches.
  clear(points, from, to) {
    const fine = [];
    for (let at = 0; at + 1 < points.length; at++) {
      const parts = points.length === 2 ? 60 : 4;
      for (let part = 0; part < parts; part++) fine.push([0, 1].map((axis) => points[at][axis] + (points[at + 1][axis] - points[at][axis]) * part / parts));
    }
    fine.push(points[points.length - 1]);
    const outside = (place) => ([x, y]) => Math.abs(x - place[0]) > this.half(place) + 2 * this.unit || Math.abs(y - place[1]) > 17 * this.unit;
    let rest = fine.filter(outside(Object.assign([...this.places[from]], { at: from })));
    if (to !== null) rest = rest.filter(outside(Object.assign([...this.places[to]], { at: to })));
    return rest.length > 1 ? rest : fine;
  }

  // Half the width of a switch's box.
  half(place) { return this.halfOf(this.update.names[place.at]) * this.unit; }
  halfOf(name) { return this.isBeside ? NARROW : Math.min(Math.max(NARROW, 4.6 * name.length + 7), WIDE); }

  // How high a name may be in a box.
  nameSize(name, half) { return Math.min(NAME, 1.75 * half / name.length); }

  aside(points, much) {
    const [[x0, y0], [x1, y1]] = [points[0], points[points.length - 1]], length = Math.hypot(x1 - x0, y1 - y0) || 1;
    return points.map(([x, y]) => [x - much * this.unit * (y1 - y0) / length, y + much * this.unit * (x1 - x0) / length]);
  }

  path(points, style) {
    return `<path d="${points.map(([x, y], at) => `${at ? "L" : "M"}${x.toFixed(2)} ${y.toFixed(2)}`).join("")}" fill="none" ${style}/>`;
  }

  text(x, y, words, size, style = "") {
    return `<text x="${x.toFixed(1)}" y="${y.toFixed(1)}" font-size="${(size * this.unit).toFixed(2)}" text-anchor="middle" ${style}>${words}</text>`;
  }

  width(much) { return (much * this.unit).toFixed(2); }

  linkLines() {
    const style = `stroke="${COLOURS.link}" stroke-width="${this.width(2)}"`;
    const lines = this.linkEnds.map(([[at, port]]) => this.path(this.line(at, port), style));
    const hosts = this.update.hosts.map(([at, port], host) => {
      const [x, y] = this.hostPlaces[host], name = hostText(this.update, host);
      return `${this.path(this.line(at, port), style)}<circle class="host" data-host="${name}" cx="${x}" cy="${y}" r="${this.width(7)}" fill="${COLOURS.paper}"`
        + ` stroke="${COLOURS.ink}" stroke-width="${this.width(1.5)}"><title>host port ${name}</title></circle>`;
    });
    return [...lines, ...hosts].join("");
  }

  // The number of each port, on its line beside the switch.
  ports() {
    return this.update.ends.map((ends, at) => [...ends.keys()].map((port) => {
      const points = this.line(at, port), [x, y] = points[Math.min(points.length - 1, this.reach(points, 8))];
      const name = `${this.update.names[at]}:${port} to ${neighbourText(this.update, at, port)}`;
      return `<g><title>${name}</title><circle cx="${x.toFixed(1)}" cy="${y.toFixed(1)}" r="${this.width(6.5)}" fill="${COLOURS.sheer}"/>`
        + this.text(x, y + 3.6 * this.unit, port, 10.5, `class="port" data-port="${this.update.names[at]}:${port}" fill="${COLOURS.grey}"`) + "</g>";
    }).join("")).join("");
  }

  // How long a line is, from its one end straight to the other, in units of the picture.
  lengthOf(points) {
    const [[x0, y0], [x1, y1]] = [points[0], points[points.length - 1]];
    return Math.hypot(x1 - x0, y1 - y0) / this.unit;
  }

  // A line without so much of its beginning and of its end.
  between(points, begin, end) {
    const most = this.lengthOf(points) / 4;
    const from = Math.min(this.reach(points, Math.min(begin, most)), points.length - 2), to = points.length - this.reach([...points].reverse(), Math.min(end, most));
    return points.slice(from, Math.max(to, from + 2));
  }

  // The number of the point that lies so far along a line.
  reach(points, much) {
    let gone = 0, at = 0;
    while (at + 1 < points.length && gone < much * this.unit) {
      gone += Math.hypot(points[at + 1][0] - points[at][0], points[at + 1][1] - points[at][1]);
      at++;
    }
    return at;
  }

  // Draws what is shown: the paths, the steps, the bad walk, the switches and the packets.
  draw(shown) {
    Object.assign(this, { changing: shown.changing, turning: shown.turning });
    this.fill("bands", this.band(shown.oldPath, COLOURS.paleOld, -6, "old-path") + this.band(shown.newPath, COLOURS.paleNew, 6, "new-path"));
    this.fill("steps", this.entry(shown) + shown.steps.map((step) => this.step(step, shown)).join(""));
    this.fill("walk", shown.bad ? this.bad(shown.bad) : "");
    this.update.names.forEach((name, at) => this.fill(`node${at}`, this.node(name, at, shown)));
    this.fill("riders", this.riders(shown.packets || []));
    this.first = [shown.chosen, ...shown.turning, ...shown.changing.keys(), ...(shown.bad ? shown.bad.steps.map(({ place }) => place.at) : []), ...shown.newPath.places.map((place) => place.at),
      ...shown.waypoints];
    this.drawLabels();
  }

  // How many pixels of the screen a unit of the picture has.
  onScreen() {
    const box = this.svg.getBoundingClientRect();
    return this.view ? Math.min(box.width / this.view[2], box.height / this.view[3]) || 1 : 1;
  }

  // Names beside the switches, of one size on the screen, where those in the boxes are too small to be read. First come those of the switches of which
  // the page speaks; a name gives way where it would cover another one, or a switch.
  drawLabels() {
    const scale = this.onScreen(), isSmall = this.isBeside || this.least * this.unit * scale < READABLE, seen = this.seen(scale);
    this.svg.classList.toggle("small", isSmall);
    if (!isSmall) { this.fill("labels", ""); return; }
    this.window = this.seen();
    const high = LABEL / scale, boxes = this.places.map(([x, y], at) => this.boxOf(x, y, this.half(Object.assign([x, y], { at })), 15 * this.unit)), taken = [], lines = [];
    for (const at of new Set([...this.first, ...this.places.keys()])) {
      const isFirst = this.first.includes(at), wide = 0.64 * high * this.update.names[at].length;
      const sides = this.besides(at, wide, high), isFree = (it) => !taken.some((other) => isOver(it, other)) && !boxes.some((other, one) => one !== at && isOver(it, other));
      const room = sides.find((it) => isFree(it) && isWithin(it, seen)) || (at === this.first[0] ? this.movedInto(sides[0], seen) : null);
      if (!room) continue;
      taken.push(room);
      lines.push(`<text class="label" data-label="${this.update.names[at]}" x="${(room.left + wide / 2).toFixed(1)}" y="${(room.top + 0.8 * high).toFixed(1)}"`
        + ` font-size="${high.toFixed(2)}" text-anchor="middle" fill="${COLOURS.ink}" stroke="${COLOURS.paper}" stroke-width="${(high / 4).toFixed(2)}" paint-order="stroke"`
        + ` font-weight="${isFirst ? "bold" : "normal"}">${this.update.names[at]}</text>`);
    }
    this.fill("labels", this.dots(scale) + lines.join(""));
  }

  // The part of the picture that is on the screen.
  seen(scale) {
    const box = this.svg.getBoundingClientRect(), [left, top, width, height] = this.view || [0, 0, this.layout.width, this.layout.height];
    return this.boxOf(left + width / 2, top + height / 2, box.width / scale / 2, box.height / scale / 2);
  }

  movedInto(room, seen) {
    const right = Math.max(0, seen.left - room.left) - Math.max(0, room.right - seen.right), low = Math.max(0, seen.top - room.top) - Math.max(0, room.low - seen.low);
    return { left: room.left + right, right: room.right + right, top: room.top + low, low: room.low + low };
  }

  // Where the boxes are too small to be seen and to be clicked: a dot for each switch.
  dots(scale) {
    if (30 * this.unit * scale > 2 * DOT) return "";
    return this.places.map(([x, y], at) => `<circle class="switch dot" data-switch="${this.update.names[at]}" cx="${x}" cy="${y}" r="${(DOT / scale).toFixed(2)}"`
      + ` fill="${this.changing.has(at) ? COLOURS.mark : COLOURS.node}" stroke="${COLOURS.ink}" stroke-width="${((at === this.first[0] ? 2.2 : 1) / scale).toFixed(2)}">`
      + `<title>${this.update.names[at]}</title></circle>`).join("");
  }

  boxOf(x, y, half, halfHigh) { return { left: x - half, right: x + half, top: y - halfHigh, low: y + halfHigh }; }

  // Where the name of a switch has room: on its outer side first, as seen from the middle of the picture.
  besides(at, wide, high) {
    const [x, y] = this.places[at], half = this.half(Object.assign([x, y], { at })), gap = 0.25 * high, halfHigh = 15 * this.unit;
    const across = half + gap + wide / 2, down = halfHigh + gap + high / 2, near = 0.6;
    const sides = [-1, 0, 1].flatMap((right) => [-1, 0, 1].map((low) => [right * across, low * down * (right ? near : 1)])).filter(([dx, dy]) => dx || dy);
    const outward = ([dx, dy]) => ((x - this.layout.width / 2) * dx + (y - this.layout.height / 2) * dy) / Math.hypot(dx, dy);
    const boxes = sides.sort((a, b) => outward(b) - outward(a)).map(([dx, dy]) => this.boxOf(x + dx, y + dy, wide / 2, high / 2));
    return [...boxes.filter((box) => this.isInside(box)), ...boxes.filter((box) => !this.isInside(box)).map((box) => this.movedInside(box))];
  }

  // What is seen of the picture: the view, and what lies beside it where the place for it has another form.
  seen() {
    const box = this.svg.getBoundingClientRect(), scale = this.onScreen(), [left, top, width, height] = this.view || [0, 0, this.layout.width, this.layout.height];
    const wide = Math.max(width, box.width / scale), high = Math.max(height, box.height / scale);
    return { left: left + (width - wide) / 2, right: left + (width + wide) / 2, top: top + (height - high) / 2, low: top + (height + high) / 2 };
  }

  isInside(box) {
    const seen = this.window;
    return box.left >= seen.left && box.top >= seen.top && box.right <= seen.right && box.low <= seen.low;
  }

  // A box moved so far that none of it is cut off at the edge of what is seen.
  movedInside({ left, right, top, low }) {
    const seen = this.window, dx = Math.max(0, seen.left - left) + Math.min(0, seen.right - right), dy = Math.max(0, seen.top - top) + Math.min(0, seen.low - low);
    return { left: left + dx, right: right + dx, top: top + dy, low: low + dy };
  }

  // Fills a part of the picture, unless it is as it was.
  fill(name, text) {
    if (this.filled.get(name) === text) return;
    this.filled.set(name, text);
    this.parts[name].innerHTML = text;
  }

  // A path as a broad band beside its links.
  band(path, colour, much, name) {
    const stops = path.places.map((place, at) => {
      const next = path.places[at + 1];
      const port = next ? this.portTo(place.at, next) : path.end.what === "leave" ? path.end.port : null;
      return port === null ? "" : this.path(this.aside(this.line(place.at, port), next || path.end.what === "leave" ? much * 0.75 : 0),
        `stroke="${colour}" stroke-width="${this.width(7)}" stroke-linecap="butt"`);
    });
    return `<g class="${name}">${stops.join("")}</g>`;
  }

  portTo(at, next) {
    const end = this.update.ends[next.at].get(next.port);
    return end.port;
  }

  // Where the packets of the class enter.
  entry({ entry }) {
    if (entry === null) return "";
    const [at, port] = this.update.hosts[entry], points = [...this.line(at, port)].reverse(), [x, y] = this.hostPlaces[entry];
    const half = 30 * this.unit, inside = Math.max(half, Math.min(this.layout.width - half, x));
    return this.path(this.between(points, 8, 15), `class="entry" stroke="${COLOURS.ink}" stroke-width="${this.width(3)}" marker-end="url(#mink)"`)
      + this.text(inside, y + (y > this.places[at][1] ? 18 : -11) * this.unit, "enter here", 10.5, `font-style="italic" fill="${COLOURS.ink}" stroke="${COLOURS.paper}" stroke-width="${this.width(3)}" paint-order="stroke"`);
  }

  step({ place, one }, shown) {
    if (one.what === "drop") return "";
    const colour = one.when === "before" ? "old" : one.when === "after" ? "new" : "ink";
    const port = one.what === "go" ? one.out : one.port, line = this.line(place.at, port), isShort = one.what === "go" && this.lengthOf(line) < 60;
    const points = this.aside(line, (isShort ? 8 : 0) + (one.when === "before" ? 3.5 : one.when === "after" ? 5.5 : 4));
    const part = isShort ? points : this.between(points, 15, one.what === "go" ? 15 : 2);
    const dashes = one.when === "before" || one.when === "between" ? `stroke-dasharray="${this.width(7)} ${this.width(4)}"` : "";
    const arrow = this.path(part, `class="step" stroke="${COLOURS[colour]}" stroke-width="${this.width(3)}" ${dashes} marker-end="url(#m${colour})"`);
    if (!shown.tagged || one.what !== "go") return arrow;
    const [x, y] = this.aside(part, 12)[Math.floor(part.length * 0.4)], words = one.vlan === 0 ? "untagged" : `tag ${one.vlan}`, wide = 6.2 * words.length;
    return `${arrow}<rect x="${(x - wide / 2 * this.unit).toFixed(1)}" y="${(y - 6 * this.unit).toFixed(1)}" width="${this.width(wide)}"`
      + ` height="${this.width(12)}" fill="${COLOURS.sheer}"/>${this.text(x, y + 3.6 * this.unit, words, 10.5, `class="tag" fill="${COLOURS.ink}"`)}`;
  }

  bad(walk) {
    return walk.steps.map(({ place, one }, at) => {
      if (!one || one.what === "drop") return "";
      const points = this.aside(this.line(place.at, one.what === "go" ? one.out : one.port), -6), middle = points[Math.floor(points.length * 0.55)];
      return this.path(points, `class="bad" stroke="${COLOURS.bad}" stroke-width="${this.width(5)}" marker-end="url(#mbad)"`)
        + `<circle cx="${middle[0].toFixed(1)}" cy="${middle[1].toFixed(1)}" r="${this.width(9)}" fill="${COLOURS.bad}"/>`
        + this.text(middle[0], middle[1] + 4 * this.unit, at + 1, 12, `fill="${COLOURS.paper}" font-weight="bold"`);
    }).join("");
  }

  // A switch has a strong colour where a change there is one of the chosen packets' steps, and a pale one where it changes for others alone.
  colourOf(at) { return this.turning.has(at) ? COLOURS.mark : this.changing.has(at) ? COLOURS.paleMark : COLOURS.node; }

  // How many changes there are at a switch; of a run that is played, how many of them are made.
  changeWords(at, { changing, pending }) {
    const count = changing.get(at), left = pending && pending.get(at) || 0;
    if (!pending) return count > 1 && count < 100 ? `${count} changes` : "changes";
    return left === count ? "pending" : left ? `${count - left} of ${count}` : "changed";
  }

  emptyNodes() { return this.update.names.map((name) => `<g class="switch" data-switch="${name}"></g>`).join(""); }

  node(name, at, shown) {
    const [x, y] = this.places[at], unit = this.unit, half = this.half(Object.assign([x, y], { at })), changing = shown.changing.has(at), ink = shown.turning.has(at) ? COLOURS.onmark : COLOURS.ink;
    const box = (more, style) => `<rect x="${(x - half - more * unit).toFixed(1)}" y="${(y - (15 + more) * unit).toFixed(1)}" width="${(2 * half + 2 * more * unit).toFixed(1)}"`
      + ` height="${this.width(30 + 2 * more)}" rx="${this.width(6)}" ${style}/>`;
    const marks = [];
    if (shown.waypoints.has(at)) marks.push(box(4, `class="waypoint" fill="${COLOURS.paper}" stroke="${COLOURS.ink}" stroke-width="${this.width(shown.own.has(at) ? 2.2 : 1)}"`));
    marks.push(box(0, `fill="${this.colourOf(at)}" stroke="${COLOURS.ink}" stroke-width="${this.width(at === shown.chosen ? 3.5 : 1.5)}"`
      + (shown.pending && shown.pending.has(at) ? ` stroke-dasharray="${this.width(5)} ${this.width(3)}"` : "")));
    const size = this.nameSize(name, half / unit);
    marks.push(this.text(x, y + (changing ? 1.5 : 5) * unit, name, size, `class="inside" fill="${ink}" font-weight="bold"`));
    if (changing) marks.push(this.text(x, y + 11.5 * unit, this.changeWords(at, shown), 8.5, `class="words inside" fill="${ink}" font-style="italic"`));
    const below = [...shown.drops.has(at) ? ["&#10005; drops"] : [], ...shown.waypoints.has(at) ? ["waypoint"] : []];
    const halo = `fill="${COLOURS.ink}" stroke="${COLOURS.paper}" stroke-width="${this.width(3)}" paint-order="stroke"`;
    if (below.length) marks.push(this.text(x, y + (shown.waypoints.has(at) ? 30 : 26) * unit, below.join(", "), 10.5, `class="words" font-style="italic" ${halo}`));
    if (shown.numbers) {
      const on = shown.visited.has(at), cx = x + half, cy = y - 15 * unit, wide = 6.5 + 3.6 * String(shown.numbers[at]).length;
      marks.push(`<rect x="${(cx - wide * unit).toFixed(1)}" y="${(cy - 10 * unit).toFixed(1)}" width="${this.width(2 * wide)}" height="${this.width(20)}" rx="${this.width(10)}"`
        + ` fill="${on ? COLOURS.ink : COLOURS.dim}"/>${this.text(cx, cy + 4.3 * unit, shown.numbers[at], 12, `class="number" fill="${on ? COLOURS.paper : COLOURS.grey}" font-weight="bold"`)}`);
    }
    return `<title>${name}</title>${marks.join("")}`;
  }

  // Packets under way, above the switches where they are.
  riders(packets) {
    const there = new Map();
    return packets.map((packet) => {
      const [x, y] = this.places[packet.at], count = there.get(packet.at) || 0;
      there.set(packet.at, count + 1);
      const cx = x + (21 * count - 18) * this.unit, cy = y - 20 * this.unit, name = packet.number;
      return `<g class="rider" data-packet="${name}" data-at="${this.update.names[packet.at]}"><circle cx="${cx.toFixed(1)}" cy="${cy.toFixed(1)}" r="${this.width(10)}"`
        + ` fill="${COLOURS.rider}" stroke="${COLOURS.paper}" stroke-width="${this.width(1.5)}"/>${this.text(cx, cy + 4.2 * this.unit, name, 11.5, `fill="${COLOURS.paper}" font-weight="bold"`)}</g>`;
    }).join("");
  }

  // Shows the whole network, or what lies around some switches.
  look(around) {
    const { width, height } = this.layout;
    this.view = [0, 0, width, height];
    if (around && around.length) {
      const near = 170 * this.unit, xs = around.map((at) => this.places[at][0]), ys = around.map((at) => this.places[at][1]);
      const left = Math.min(...xs) - near, top = Math.min(...ys) - near * 0.7;
      this.view = [left, top, Math.max(...xs) + near - left, Math.max(...ys) + near * 0.7 - top];
    }
    this.show();
  }

  scale(by, x = 0.5, y = 0.5) {
    const [left, top, width, height] = this.view;
    this.view = [left + width * (1 - by) * x, top + height * (1 - by) * y, width * by, height * by];
    this.show();
  }

  move(dx, dy) {
    const box = this.svg.getBoundingClientRect(), much = Math.max(this.view[2] / box.width, this.view[3] / box.height);
    this.view[0] -= dx * much;
    this.view[1] -= dy * much;
    this.show();
  }

  show() {
    this.svg.setAttribute("viewBox", this.view.map((it) => it.toFixed(1)).join(" "));
    if (this.first) this.drawLabels();
  }
}

function isOver(one, other) { return one.left < other.right && other.left < one.right && one.top < other.low && other.top < one.low; }

function isWithin(one, other) { return other.left <= one.left && one.right <= other.right && other.top <= one.top && one.low <= other.low; }

// What the lines of the picture mean.
function legendText(update) {
  if (update.alone) return "";
  const line = (style) => `<svg width="34" height="10"><path d="M2 5H30" ${style}/></svg>`;
  const parts = [[line(`stroke="${COLOURS.ink}" stroke-width="3"`), "step in any case"],
    [line(`stroke="${COLOURS.old}" stroke-width="3" stroke-dasharray="7 4"`), "step before a change of this round"],
    [line(`stroke="${COLOURS.new}" stroke-width="3"`), "step after it"],
    [line(`stroke="${COLOURS.paleOld}" stroke-width="7"`), "old path"], [line(`stroke="${COLOURS.paleNew}" stroke-width="7"`), "new path"],
    [`<svg width="16" height="12"><rect x="1" y="1" width="14" height="10" fill="${COLOURS.mark}" stroke="${COLOURS.ink}"/></svg>`, "switch that changes for these packets"],
    [`<svg width="16" height="12"><rect x="1" y="1" width="14" height="10" fill="${COLOURS.paleMark}" stroke="${COLOURS.ink}"/></svg>`, "for others alone"]];
  if (update.kind === "ordered") parts.push([`<svg width="16" height="16"><circle cx="8" cy="8" r="7" fill="${COLOURS.ink}"/></svg>`, "number in the plan: steps go to lower ones"]);
  parts.push([`<svg width="12" height="12"><circle cx="6" cy="6" r="5" fill="${COLOURS.paper}" stroke="${COLOURS.ink}"/></svg>`, "host port"]);
  return parts.map(([mark, words]) => `<span>${mark} ${words}</span>`).join("");
}
