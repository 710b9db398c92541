"use strict";
// The state of a run and its drawing. A change of the state changes only those elements of the drawing that differ.
const REGISTERS = ["pointer", "m", "married", "rule", "chosen"];
const NEVER = -9; // a value that no element of a state has, for a part whose drawing isn't known

class State {
  constructor(nodes, links) {
    this.pointer = new Int32Array(nodes).fill(-1);
    this.m = new Int8Array(nodes);
    this.married = new Int32Array(nodes).fill(-1);
    this.rule = new Int8Array(nodes);
    this.chosen = new Int8Array(nodes);
    this.linked = new Int8Array(links);
    this.witness = new Int32Array(links).fill(-1);
    this.reason = new Int8Array(links);
    Object.assign(this, { privileged: 0, paired: 0, open: 0 }); // the numbers of privileged nodes, of nodes in pairs, and of open links
    Object.assign(this, { linksAt: -1, openAt: -1 }); // the last row that changed links, and the last one that changed open links
  }

  // Returns a copy of the state, with room for this number of links.
  copy(links = this.linked.length) {
    const copy = Object.assign(new State(0, 0), this);
    for (const [name, value] of Object.entries(this)) if (ArrayBuffer.isView(value)) copy[name] = value.slice();
    for (const [name, none] of links > this.linked.length ? [["linked", 0], ["witness", -1], ["reason", 0]] : []) {
      const longer = new this[name].constructor(links).fill(none);
      longer.set(this[name]);
      copy[name] = longer;
    }
    return copy;
  }

  // Applies the changes in a row to the state.
  apply(row, at) {
    for (const [node, pointer, m] of row.registers || []) { this.pointer[node] = pointer; this.m[node] = m; }
    for (const [node, rule] of row.chosen || []) this.chosen[node] = rule;
    for (const [node, rule] of row.privileged || []) {
      this.privileged += (rule > 0) - (this.rule[node] > 0);
      this.rule[node] = rule;
    }
    for (const [node, partner] of row.married || []) {
      this.paired += (partner >= 0) - (this.married[node] >= 0);
      this.married[node] = partner;
    }
    for (const [link, linked] of row.links || []) this.linked[link] = linked;
    if (row.links) this.linksAt = at;
    for (const [first, count, witness, rule] of row.open || []) {
      for (let link = first; link < first + count; link += 1) this.open += (witness >= 0) - (this.witness[link] >= 0);
      this.witness.fill(witness, first, first + count);
      this.reason.fill(rule, first, first + count);
    }
    if (row.open) this.openAt = at;
  }
}

const NS = "http://www.w3.org/2000/svg";
const SMALLEST = 12, SMALLEST_ON_PHONE = 11; // the least size of a text in pixels, so that it can be read
const PHONE = 500; // if the drawing's area has fewer pixels in width, the drawing for phones is used
const GROWING = 450; // milliseconds in which new arrows grow
const ANCHORS = ["start", "middle", "end"], SIDES = [0.5, 0, -0.5];

function element(name, attributes, text) {
  const made = document.createElementNS(NS, name);
  for (const [key, value] of Object.entries(attributes)) made.setAttribute(key, value);
  if (text !== undefined) made.textContent = text;
  return made;
}

const isStill = () => matchMedia("(prefers-reduced-motion: reduce)").matches;

class Drawing {
  constructor(root, data) {
    this.root = root;
    this.data = data;
    const all = new Map([...root.querySelectorAll(".node")].map((group) => [Number(group.dataset.node), group]));
    this.nodes = data.nodes.map((node) => this.parts(all.get(node.id)));
    const arrows = new Map([...root.querySelectorAll(".pointer")].map((path) => [Number(path.dataset.of), path]));
    this.arrows = data.nodes.map((node) => arrows.get(node.id));
    this.layers = Object.fromEntries(["removed", "pairs"].map((name) => [name, root.querySelector("path." + name)]));
    this.groups = Object.fromEntries(["links", "open", "witness"].map((name) => [name, root.parentNode.querySelector("g." + name)]));
    this.rows = Object.fromEntries(Object.entries(this.groups).map(([name, group]) => [name, [...group.querySelectorAll("path")]]));
    this.witnesses = root.querySelector(".witnesses");
    this.mark = root.querySelector("text.mark");
    this.marker = root.querySelector("#arrow");
    this.segments = [];
    this.lower = data.nodes.map(() => []); // for each node the links of which it is the lower end: their lines are in one path
    this.growing = null;
    this.place(data.views[0]);
    this.fit();
    new ResizeObserver(() => this.fit()).observe(root.parentNode);
  }

  parts(group) {
    const part = (name) => group.querySelector(name);
    return { group, ring: part(".ring"), disc: part(".disc"), identifier: part(".identifier"), owner: part(".owner"), pill: part(".pill"), frame: part(".pill rect"), rule: part("text.rule") };
  }

  // Draws everything at the positions of a view.
  place(view) {
    this.view = view;
    this.points = view.points;
    const { measures } = view, box = `0 0 ${view.width} ${view.height}`;
    for (const svg of this.root.parentNode.querySelectorAll("svg")) svg.setAttribute("viewBox", box);
    for (const [name, times] of [["links", 1], ["open", 1.5], ["witness", 3]]) this.groups[name].setAttribute("stroke-width", measures.link * times);
    this.layers.removed.setAttribute("stroke-width", 2 * measures.link);
    this.layers.pairs.setAttribute("stroke-width", measures.pair);
    this.root.querySelector(".pointers").setAttribute("stroke-width", measures.arrow);
    for (const side of ["markerWidth", "markerHeight"]) this.marker.setAttribute(side, measures.head);
    this.mark.setAttribute("font-size", measures.mark);
    this.nodes.forEach((parts, node) => this.placeNode(parts, node));
    this.segments = this.data.links.map(([a, b]) => this.segment(this.points[a], this.points[b]));
    if (this.lower.every((row) => row.length === 0)) this.data.links.forEach(([a], link) => this.lower[a].push(link));
    for (const rows of Object.values(this.rows)) for (const row of rows) row.setAttribute("d", "");
    this.forget();
  }

  placeNode(parts, node) {
    const { measures } = this.view, [x, y] = this.points[node], label = this.view.labels[node];
    parts.group.setAttribute("transform", `translate(${x} ${y})`);
    parts.ring.setAttribute("r", measures.ring);
    parts.ring.setAttribute("stroke-width", measures.ringLine);
    parts.disc.setAttribute("r", measures.radius);
    parts.disc.setAttribute("stroke-width", measures.discLine);
    parts.identifier.setAttribute("font-size", measures.identifier);
    parts.identifier.setAttribute("y", 0.36 * measures.identifier);
    parts.rule.setAttribute("font-size", measures.pill);
    parts.rule.setAttribute("y", 0.35 * measures.pill);
    for (const [name, value] of [["y", -measures.pillHigh / 2], ["height", measures.pillHigh], ["rx", measures.pillHigh / 2]]) parts.frame.setAttribute(name, value);
    if (parts.owner) parts.owner.textContent = label ? label[0] : "";
  }

  // Chooses the view for the width of the drawing's area, and hides texts that would be too small to be read.
  fit() {
    const stage = this.root.parentNode, wide = stage.clientWidth, high = stage.clientHeight;
    if (!wide || !high) return;
    const view = this.data.views[wide < PHONE ? this.data.views.length - 1 : 0];
    if (view !== this.view) this.place(view);
    const scale = Math.min(wide / view.width, high / view.height), least = innerWidth <= 700 ? SMALLEST_ON_PHONE : SMALLEST;
    this.root.setAttribute("class", view.kind);
    this.root.classList.toggle("nolabels", view.measures.identifier * scale < least);
    this.root.classList.toggle("nopills", view.measures.pill * scale < least);
    const size = Math.max(view.measures.mark, least / scale);
    this.mark.setAttribute("font-size", size);
    this.witnesses.setAttribute("font-size", Math.max(13, least / scale));
    document.body.classList.toggle("short", !view.words && !view.tiny);
    if (this.last) this.show(...this.last);
  }

  // Forgets what is drawn, so that everything is drawn again the next time.
  forget() {
    const nodes = this.nodes.length, links = this.segments.length;
    this.said = new Map();
    this.shown = new State(nodes, links);
    for (const value of Object.values(this.shown)) if (ArrayBuffer.isView(value)) value.fill(NEVER);
    this.shown.linksAt = this.shown.openAt = NEVER;
    this.drawn = new Int32Array(links).fill(NEVER);
    this.none = new Int32Array(links).fill(-1);
  }

  // Forgets all links. `grow` adds them again.
  empty() {
    for (const rows of Object.values(this.rows)) for (const row of rows) row.setAttribute("d", "");
    this.segments = [];
    this.lower = this.data.nodes.map(() => []);
    this.last = null;
    this.forget();
  }

  // Adds the links that are new in the data.
  grow() {
    const { links } = this.data, known = this.segments.length;
    if (known === links.length) return;
    for (let link = known; link < links.length; link += 1) {
      const [a, b] = links[link];
      this.segments.push(this.segment(this.points[a], this.points[b]));
      this.lower[a].push(link);
    }
    this.shown = this.shown.copy(links.length);
    this.shown.linked.fill(NEVER, known);
    const drawn = new Int32Array(links.length).fill(NEVER);
    drawn.set(this.drawn);
    this.drawn = drawn;
    this.none = new Int32Array(links.length).fill(-1);
  }

  segment(a, b) { return `M${a[0]} ${a[1]}L${b[0]} ${b[1]}`; }

  half(a, b) { return this.segment(a, [(a[0] + b[0]) / 2, (a[1] + b[1]) / 2]); }

  // Returns the path data of an arrow from the rim of one node to the ring of another, or of its first part, the share `grown`.
  arrow(a, b, grown) {
    const [x, y] = this.points[a], [u, v] = this.points[b], length = Math.hypot(u - x, v - y) || 1;
    const { radius, head } = this.view.measures, along = [(u - x) / length, (v - y) / length];
    const end = radius + head + (length - 2.36 * radius - head) * grown;
    const at = (far) => `${(x + along[0] * far).toFixed(1)} ${(y + along[1] * far).toFixed(1)}`;
    return `M${at(radius)}L${at(end)}`;
  }

  word(rule) { return this.view.words ? rule : rule.slice(0, 1).toUpperCase(); }

  // Sets an attribute of an element if it differs from the last value. This is for elements whose attributes change seldom.
  set(element, name, value) {
    const values = this.said.get(element) || {};
    if (values[name] === value) return;
    element.setAttribute(name, value);
    this.said.set(element, { ...values, [name]: value });
  }

  // Shows a state. If `moves` is set, new arrows grow.
  show(state, row, moves = false) {
    this.last = [state, row];
    cancelAnimationFrame(this.growing);
    this.finish();
    this.grown = [];
    this.root.classList.toggle("moves", moves);
    let paired = false;
    for (let node = 0; node < this.nodes.length; node += 1) paired = this.showNode(node, state) || paired;
    if (paired) this.showPairs(state);
    this.showLinks(state);
    this.showMark(row);
    this.set(this.root, "data-place", String(row.place));
    this.set(this.root, "data-number", String(row.number));
    this.set(this.root, "data-privileged", String(state.privileged));
    this.set(this.root, "data-pairs", String(state.paired / 2));
    if (moves && this.grown.length > 0 && !isStill()) this.animate();
  }

  animate() {
    const arrows = this.grown, start = performance.now();
    const turn = (now) => {
      const part = Math.min(1, (now - start) / GROWING);
      for (const [node, pointer] of arrows) this.arrows[node].setAttribute("d", this.arrow(node, pointer, part));
      if (part < 1) this.growing = requestAnimationFrame(turn);
      else this.grown = [];
    };
    turn(start);
  }

  // Draws the arrows completely that were still growing.
  finish() {
    for (const [node, pointer] of this.grown || []) if (this.shown.pointer[node] === pointer && this.shown.married[node] < 0) this.arrows[node].setAttribute("d", this.arrow(node, pointer, 1));
  }

  // Shows a node in a state. Returns whether the node has another partner than before.
  showNode(node, state) {
    const { shown } = this, parts = this.nodes[node];
    const pointer = state.pointer[node], partner = state.married[node];
    const turned = pointer !== shown.pointer[node], paired = partner !== shown.married[node];
    if (turned) parts.group.setAttribute("data-p", pointer < 0 ? "" : String(this.data.nodes[pointer].id));
    if (paired) parts.group.setAttribute("data-married", String(partner >= 0));
    if (turned || paired) {
      const isDrawn = pointer >= 0 && partner < 0;
      this.arrows[node].setAttribute("d", isDrawn ? this.arrow(node, pointer, 1) : "");
      if (isDrawn && shown.pointer[node] !== NEVER) this.grown.push([node, pointer]);
    }
    if (state.m[node] !== shown.m[node]) parts.group.setAttribute("data-m", String(state.m[node] > 0));
    const ruled = state.rule[node] !== shown.rule[node], chosen = state.chosen[node] !== shown.chosen[node];
    if (ruled) parts.group.setAttribute("data-rule", this.data.rules[state.rule[node]]);
    if (chosen) parts.group.setAttribute("data-chosen", this.data.rules[state.chosen[node]]);
    if (ruled || chosen) this.showPill(parts, node, state.chosen[node] || state.rule[node], state.chosen[node] > 0);
    const before = REGISTERS.filter((name) => shown[name][node] !== state[name][node]);
    if (before.length > 0) parts.group.setAttribute("aria-label", this.describe(node, state));
    for (const name of before) shown[name][node] = state[name][node];
    return paired;
  }

  // Returns the description of a node for people who don't see the drawing.
  describe(node, state) {
    const { nodes, rules } = this.data, id = (other) => (other < 0 ? "null" : String(nodes[other].id));
    const words = [`node ${id(node)} of ${nodes[node].owners.join(" and ") || "the house"}`, "p " + id(state.pointer[node]), "m " + (state.m[node] > 0)];
    if (state.married[node] >= 0) words.push("married to " + id(state.married[node]));
    if (state.rule[node] > 0) words.push("privileged: " + rules[state.rule[node]]);
    if (state.chosen[node] > 0) words.push("chosen: " + rules[state.chosen[node]]);
    return words.join(", ");
  }

  // Shows the enabled or chosen rule of a node in a frame.
  showPill(parts, node, rule, isChosen) {
    const width = this.view.widths[rule][Number(isChosen)], label = this.view.labels[node];
    const at = label ? [label[2] + SIDES[label[1]] * width, label[4]] : this.view.corners[node];
    parts.pill.setAttribute("transform", `translate(${at[0]} ${at[1]})`);
    parts.frame.setAttribute("x", -width / 2);
    parts.frame.setAttribute("width", width);
    const word = this.data.rules[rule];
    parts.rule.textContent = word ? (isChosen ? "✓ " : "") + this.word(word) : "";
  }

  showPairs(state) {
    const pairs = [];
    state.married.forEach((partner, node) => {
      if (partner > node) pairs.push(this.segment(this.points[node], this.points[partner]));
    });
    this.layers.pairs.setAttribute("d", pairs.join(""));
  }

  // Shows the links. Drawing them takes longest, so only paths with a changed link are drawn again.
  showLinks(state) {
    const { shown } = this;
    if (state.linksAt !== shown.linksAt) {
      for (const row of this.changed(state.linked, shown.linked)) {
        this.line("links", row, (link) => (state.linked[link] > 0 ? this.segments[link] : ""));
      }
    }
    if (state.openAt !== shown.openAt) {
      const drawn = state.open <= this.data.openMost ? state.witness : this.none;
      for (const row of this.changed(drawn, this.drawn)) {
        this.line("open", row, (link) => (drawn[link] < 0 ? "" : this.segments[link]));
        this.line("witness", row, (link) => this.witnessed(link, drawn[link]));
      }
      this.nameWitnesses(state);
    }
    [shown.linksAt, shown.openAt] = [state.linksAt, state.openAt];
  }

  // Returns the lower ends of all links whose value has changed. Copies the new values to `before`.
  changed(values, before) {
    const rows = new Set();
    for (let link = 0; link < values.length; link += 1) {
      if (values[link] === before[link]) continue;
      before[link] = values[link];
      rows.add(this.data.links[link][0]);
    }
    return rows;
  }

  line(name, row, of) { this.rows[name][row].setAttribute("d", this.lower[row].map(of).join("")); }

  witnessed(link, witness) {
    const [a, b] = this.data.links[link];
    if (witness === a) return this.half(this.points[a], this.points[b]);
    return witness === b ? this.half(this.points[b], this.points[a]) : "";
  }

  nameWitnesses(state) {
    const named = [];
    if (state.open <= this.data.witnessesMost) state.witness.forEach((witness, link) => { if (witness >= 0) named.push(link); });
    this.witnesses.replaceChildren(...named.map((link) => this.witnessOf(link, state)));
  }

  witnessOf(link, state) {
    const [a, b] = this.data.links[link], [from, to] = [this.points[a], this.points[b]];
    const rule = this.data.rules[state.reason[link]];
    return element("text", { x: (from[0] + to[0]) / 2, y: (from[1] + to[1]) / 2 }, this.data.nodes[state.witness[link]].id + ": " + this.word(rule));
  }

  // Marks the nodes of a fault, link or cut, and shows the name of the event.
  showMark(row) {
    const isEdit = this.data.edits.includes(row.kind), nodes = isEdit ? row.nodes : [];
    const places = nodes.map((node) => this.points[node]), text = isEdit ? "⚡ " + row.kind : "";
    this.set(this.layers.removed, "d", row.kind === "cut" ? this.segment(places[0], places[1]) : "");
    const hit = nodes.join();
    if (this.said.get("hit") !== hit) this.nodes.forEach(({ group }, node) => group.classList.toggle("hit", nodes.includes(node)));
    this.said.set("hit", hit);
    if (this.said.get("mark") !== text) this.mark.textContent = text;
    this.said.set("mark", text);
    if (!isEdit) return;
    const middle = (axis) => places.reduce((sum, point) => sum + point[axis], 0) / places.length, { markUp, mark } = this.view.measures;
    this.set(this.mark, "x", String(middle(0)));
    this.set(this.mark, "y", String(Math.max(mark, middle(1) - (row.kind === "fault" ? markUp : mark / 2))));
  }
}

const counted = (count, word) => `${count} ${word}${count === 1 ? "" : "s"}`;

// The texts above the drawing. Each is set only if it differs from the last one.
class Aside {
  constructor(document) {
    this.find = (name) => document.getElementById(name);
    this.said = {};
  }

  say(name, text) {
    if (this.said[name] !== text) this.find(name).textContent = text;
    this.said[name] = text;
  }

  tell(state, row) {
    const told = row.stable ? "At rest" : `${counted(state.privileged, "node")} can move`, pairs = counted(state.paired / 2, "pair");
    this.say("told", told);
    this.find("state").classList.toggle("rest", row.stable);
    this.find("state").title = `${row.stable ? "stable" : "not stable"}: ${counted(state.privileged, "privileged node")}`;
    this.say("pairs", pairs);
    this.say("number", String(row.number));
    this.say("since", String(row.since));
    this.say("moved", row.since === 1 ? "move" : "moves");
    this.find("most").hidden = row.bound === null;
    this.say("bound", String(row.bound));
    this.find("fill").style.width = row.bound === null ? "0" : 100 * row.since / row.bound + "%";
    this.find("counts").title = `after event ${row.place}: ${counted(row.moves, "move")} in the whole run, ${counted(state.open, "link")} between free nodes now`;
    this.announce(`step ${row.number}: ${told}, ${pairs}`);
  }

  // Announces a new state to screen readers after a short pause, so that not each step of a playing run is read aloud.
  announce(text) {
    clearTimeout(this.waiting);
    this.waiting = setTimeout(() => this.say("said", text), 300);
  }
}

// Lets a button and the key f switch the page to the full screen and back.
function wholeScreen(document) {
  const turn = () => (document.fullscreenElement ? document.exitFullscreen() : document.documentElement.requestFullscreen());
  document.getElementById("whole").addEventListener("click", turn);
  document.addEventListener("keydown", (event) => {
    const types = ["INPUT", "SELECT"].includes(event.target.tagName);
    if (event.key === "f" && !types && !event.ctrlKey && !event.altKey && !event.metaKey) turn();
  });
}

// Lets a button show or hide open links and their witnesses, which are hidden at first.
function witnessButton(document) {
  const button = document.getElementById("witnesses");
  button.addEventListener("click", () => {
    button.setAttribute("aria-pressed", String(document.body.classList.toggle("witnessed")));
  });
}

// Makes each node a button.
function nodeButtons(drawing, act) {
  drawing.nodes.forEach(({ group }, node) => {
    group.setAttribute("tabindex", "0");
    group.setAttribute("role", "button");
    group.addEventListener("click", () => act(node));
    group.addEventListener("keydown", (event) => {
      if (event.key !== "Enter" && event.key !== " ") return;
      event.preventDefault();
      event.stopPropagation();
      act(node);
    });
  });
}

// Returns the text of an event for people, as `in_words` of `classroom/core/journal.py` does.
function toldEvent(data, row) {
  if (!row.kind) return "the beginning of the run";
  const words = row.text.split(" ");
  if (row.kind === "grant") return `node ${words[2]} (${words[1]}): ${words.slice(3).join(" with ")}`;
  if (row.kind === "close") return "the step is closed";
  if (row.kind === "fault") return `⚡ fault at node ${words[1]}: p ${words[2] === "-" ? "null" : words[2]}, m ${words[3]}`;
  if (data.edits.includes(row.kind)) return `⚡ link ${words.slice(1).join("–")} ${row.kind === "cut" ? "removed" : "added"}`;
  return `node ${words[1]}: its move is dropped`;
}

async function dataOf(document) {
  const element = document.getElementById("data");
  if (element.dataset.form === "plain") return JSON.parse(element.textContent);
  const bytes = Uint8Array.from(atob(element.textContent.trim()), (letter) => letter.charCodeAt(0));
  const stream = new Blob([bytes]).stream().pipeThrough(new DecompressionStream("deflate"));
  return new Response(stream).json();
}

// Moves the links into a drawing of their own under the rest. The browser paints it again only if links change. Returns this drawing.
function splitLinks(root) {
  const back = root.cloneNode(false);
  for (const name of ["id", "role", "aria-label"]) back.removeAttribute(name);
  for (const name of Object.keys(back.dataset)) delete back.dataset[name];
  back.classList.add("back");
  back.setAttribute("aria-hidden", "true");
  back.append(root.querySelector("g.links"));
  root.before(back);
  return back;
}
