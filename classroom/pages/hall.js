"use strict";
// Shows the state of a class. The server sends the whole state each time it has changed. Unchanged elements aren't replaced.

const acts = document.body.classList.contains("acts");
const here = location.href.replace(/\/[^/]*$/, "/");
const order = (word) => fetch(here + "act", {method: "POST", body: word});
const NS = "http://www.w3.org/2000/svg";
const LINES = 3; // the number of lines of the desk that are shown, the newest ones
const SMALLEST = 12, SMALLEST_ON_PHONE = 11; // the least size of a text in pixels, so that it can be read
const LETTER = 0.37; // n digits fit into a disc if n times this multiple of their size is at most the radius
const PILL_AT = [1.1, -1.25]; // the middle of the frame of a rule, relative to the node's middle, in radii
const PILL_HIGH = 1.45; // the height of the frame of a rule, as a multiple of its letter's size
const PILL_MOST = 1.2; // the greatest size of the letter of a rule, in radii of its node

/** Returns a new element with a text and a class. */
function made(kind, text = "", of = "") {
  const it = document.createElement(kind);
  it.textContent = text;
  if (of) it.className = of;
  return it;
}

/** Sets attributes of an element, and returns the element. */
function set(element, attributes) {
  for (const [name, value] of Object.entries(attributes)) element.setAttribute(name, value);
  return element;
}

/** Returns a new SVG element with these attributes. */
function drawn(kind, attributes) {
  return set(document.createElementNS(NS, kind), attributes);
}

/** Sets the text of an element if it differs, so that a screen reader doesn't read the same text twice. */
function say(element, text) {
  if (element.textContent !== text) element.textContent = text;
}

// What each button does, as its tooltip.
const TITLES = {
  close: "closes the step: all granted moves are applied together", end: "asks you to confirm, and then ends the run",
  "shake 3": "sets the registers of three random nodes to random values", resume: "continues a network that is down",
  "shake all": "sets the registers of all nodes to random values",
};

/** Returns the buttons that send a command to one network, or to all. The button for the end asks before it sends. */
function buttons(to, isDown) {
  const row = made("p", "", "acts");
  const words = isDown ? ["resume", "end"] : ["close", "shake 3", "shake all", "end"];
  for (const word of words) {
    const button = made("button", `${word} ${to === "all" ? "everywhere" : ""}`.trim());
    button.title = TITLES[word];
    button.dataset.line = `${to}: ${word}`;
    button.addEventListener("click", () => {
      if (word !== "end" || confirm(`End the run${to === "all" ? "s of all networks" : ` of network ${to}`}? After that, nobody can move any more.`)) order(button.dataset.line);
    });
    row.append(button);
  }
  return row;
}

/** Returns a number and a noun, to which an s is added unless the number is 1. */
function counted(number, word) {
  return `${number} ${word}${number === 1 ? "" : "s"}`;
}

/** Returns the state of a network in a few words. */
function told(network) {
  if (network.status === "down") return "Down";
  if (network.status === "ended") return "Ended";
  if (!network.state) return "Starting";
  return network.state.stable ? "At rest" : `${counted(network.state.privileged.length, "node")} can move`;
}

/** Returns a text with the names of the missing students, or an empty one if they aren't known. */
function missing(state) {
  const names = state.missing;
  if (names === null) return "";
  return names.length ? `missing: ${names.join(", ")}` : "nobody is missing";
}

// A small drawing of a network, with the same signs as the large ones.
class Picture {
  constructor(view, number) {
    this.view = view;
    this.at = new Map(view.nodes.map((node, index) => [node, view.points[index]]));
    const { measures } = view;
    this.root = drawn("svg", { viewBox: `0 0 ${view.width} ${view.height}`, role: "img" });
    const marker = drawn("marker", { id: `tip-${number}`, viewBox: "0 0 10 10", refX: 9.5, refY: 5, markerUnits: "userSpaceOnUse", markerWidth: measures.head, markerHeight: measures.head, orient: "auto" });
    marker.append(drawn("path", { d: "M0 0L10 5L0 10z" }));
    this.root.append(marker);
    this.layers = Object.fromEntries([["links", measures.link], ["pairs", measures.pair], ["pointer", measures.arrow]].map(([name, thick]) => [name, drawn("path", { class: name, "stroke-width": thick })]));
    this.layers.pointer.setAttribute("marker-end", `url(#tip-${number})`);
    this.arrows = drawn("g", {});
    this.nodes = new Map(view.nodes.map((node) => [node, this.node(node)]));
    this.root.append(this.layers.links, this.layers.pairs, this.arrows, ...this.nodes.values());
    new ResizeObserver(() => this.fit()).observe(this.root);
  }

  node(node) {
    const { measures } = this.view, [x, y] = this.at.get(node);
    const group = drawn("g", { class: "node", transform: `translate(${x} ${y})`, "data-node": node });
    const name = drawn("text", { class: "identifier" });
    name.textContent = String(node);
    const pill = drawn("g", { class: "pill", transform: `translate(${PILL_AT[0] * measures.radius} ${PILL_AT[1] * measures.radius})` });
    pill.append(drawn("rect", {}), drawn("text", { class: "rule" }));
    group.append(drawn("circle", { class: "ring", r: measures.ring, "stroke-width": measures.ringLine }), drawn("circle", { class: "disc", r: measures.radius, "stroke-width": measures.discLine }), name, pill);
    return group;
  }

  line([a, b]) {
    const [x, y] = this.at.get(a), [u, v] = this.at.get(b);
    return `M${x} ${y}L${u} ${v}`;
  }

  // Returns the path data of an arrow from the rim of one node to the ring of another.
  arrow(a, b) {
    const [x, y] = this.at.get(a), [u, v] = this.at.get(b), length = Math.hypot(u - x, v - y) || 1, { radius } = this.view.measures;
    const point = (far) => `${(x + (u - x) * far / length).toFixed(1)} ${(y + (v - y) * far / length).toFixed(1)}`;
    return `M${point(radius)}L${point(length - 1.36 * radius)}`;
  }

  show(state) {
    const rules = new Map(state.privileged), married = new Set(state.pairs.flat());
    this.layers.links.setAttribute("d", state.links.map((link) => this.line(link)).join(""));
    this.layers.pairs.setAttribute("d", state.pairs.map((pair) => this.line(pair)).join(""));
    const arrows = state.nodes.filter(([node, p]) => p !== null && !married.has(node)).map(([node, p]) => {
      const path = this.layers.pointer.cloneNode();
      path.setAttribute("d", this.arrow(node, p));
      return path;
    });
    this.arrows.replaceChildren(...arrows);
    for (const node of this.nodes.keys()) this.showNode(node, null, false, null, rules.get(node), married.has(node));
    for (const [node, p, m, chosen] of state.nodes) this.showNode(node, p, m, chosen, rules.get(node), married.has(node));
    this.root.setAttribute("aria-label", `the network: ${counted(state.privileged.length, "node")} can move, ${counted(state.pairs.length, "pair")}`);
  }

  showNode(node, p, m, chosen, rule, married) {
    const group = this.nodes.get(node), word = chosen || rule || "";
    if (!group) return;
    Object.assign(group.dataset, { p: p ?? "", m: String(m), married: String(married), rule: rule || "", chosen: chosen || "" });
    say(group.querySelector(".rule"), (chosen ? "✓" : "") + word.slice(0, 1).toUpperCase());
  }

  // Makes texts large enough to be read. Hides identifiers and rules if the discs are then too small for them.
  fit() {
    const { width, height, measures, nodes } = this.view, scale = Math.min(this.root.clientWidth / width, this.root.clientHeight / height);
    const least = (innerWidth <= 700 ? SMALLEST_ON_PHONE : SMALLEST) / scale, digits = String(Math.max(...nodes)).length;
    const size = Math.max(measures.identifier, least), letter = Math.max(measures.pill, least), high = PILL_HIGH * letter;
    for (const group of this.nodes.values()) {
      set(group.querySelector(".identifier"), { y: 0.36 * size, "font-size": size });
      set(group.querySelector(".rule"), { y: 0.35 * letter, "font-size": letter });
      set(group.querySelector("rect"), { x: -0.7 * high, y: -high / 2, width: 1.4 * high, height: high, rx: high / 2 });
    }
    this.root.classList.toggle("nolabels", LETTER * digits * size > measures.radius);
    this.root.classList.toggle("nopills", letter > PILL_MOST * measures.radius);
  }
}

// Shows a network: its state, its drawing and its buttons.
class Card {
  constructor(view, number) {
    this.root = made("article");
    this.root.dataset.number = number;
    const head = made("h2");
    [this.name, this.place] = [made("a"), made("small")];
    head.append(this.name, " ", this.place);
    const top = made("div", "", "top");
    [this.state, this.alarm, this.facts, this.missing] = ["state", "alarm", "facts", "missing"].map((of) => made("p", "", of));
    this.bar = made("progress");
    this.bar.setAttribute("aria-label", "moves");
    top.append(head, this.state);
    this.picture = view ? new Picture(view, number) : null;
    this.root.append(top, this.bar, this.alarm, ...(this.picture ? [this.picture.root] : []), this.facts, this.missing);
    this.acts = null;
  }

  show(network) {
    const text = JSON.stringify(network);
    if (text === this.shown) return;
    this.shown = text;
    const { state } = network, isAtRest = network.status === "runs" && state && state.stable;
    this.root.className = isAtRest ? "stable" : network.status;
    say(this.name, network.name);
    if (network.page) Object.assign(this.name, { href: network.page, target: "_blank" });
    else this.name.removeAttribute("href");
    say(this.place, [network.room && `room ${network.room}`, network.port && `port ${network.port}`].filter(Boolean).join(", "));
    say(this.state, told(network));
    say(this.alarm, network.alarm);
    for (const each of [this.bar, this.facts, this.missing]) each.hidden = !state;
    if (state) this.showState(state);
    this.showActs(network);
  }

  showState(state) {
    const moves = state.most === null ? counted(state.moves, "move") : `${state.moves} of at most ${state.most} moves`;
    say(this.facts, `${counted(state.pairs.length, "pair")} · step ${state.configuration} · ${moves}`);
    Object.assign(this.bar, { max: state.most || 1, value: state.moves });
    say(this.missing, missing(state));
    if (this.picture) this.picture.show(state);
  }

  showActs(network) {
    const kind = !acts || network.status === "ended" ? "" : network.status === "down" ? "down" : "runs";
    if (kind === this.kind) return;
    this.kind = kind;
    if (this.acts) this.acts.remove();
    this.acts = kind ? buttons(String(network.number), kind === "down") : null;
    if (this.acts) this.root.append(this.acts);
  }
}

const views = JSON.parse(document.getElementById("views").textContent);
const cards = new Map();
let lines = [];

/** Shows the newest lines of the desk. Adds new ones at the end, and keeps the elements of the others. */
function showLines(all) {
  const list = document.getElementById("lines"), shown = all.slice(-LINES);
  let same = Math.min(lines.length, shown.length);
  while (same > 0 && lines.slice(-same).join("\n") !== shown.slice(0, same).join("\n")) same -= 1;
  while (list.childElementCount > same) list.firstChild.remove();
  list.append(...shown.slice(same).map((line) => made("li", line)));
  lines = shown;
}

/** Shows the state of the class. */
function show(state) {
  const root = document.getElementById("networks");
  root.style.setProperty("--columns", Math.ceil(Math.sqrt(state.networks.length)));
  root.style.setProperty("--rows", Math.ceil(state.networks.length / Math.ceil(Math.sqrt(state.networks.length))));
  state.networks.forEach((network, index) => {
    if (!cards.has(network.number)) {
      cards.set(network.number, new Card(views[index], network.number));
      root.append(cards.get(network.number).root);
    }
    cards.get(network.number).show(network);
  });
  showLines(state.lines);
  const down = state.networks.filter((network) => network.status === "down"), still = state.networks.filter((network) => network.state && network.state.stable);
  say(document.getElementById("said"), [...down.map((network) => `${network.name} is down`), `${still.length} of ${counted(state.networks.length, "network")} at rest`].join(", "));
  say(document.getElementById("connection"), state.ended ? "the class is over" : "");
  if (acts && !document.getElementById("all").childElementCount) document.getElementById("all").append(buttons("all", false));
  document.body.dataset.ready = "true";
}

show(JSON.parse(document.getElementById("data").textContent));
const news = new EventSource(here + "events");
news.onmessage = (event) => {
  const state = JSON.parse(event.data);
  show(state);
  if (state.ended) news.close();
};
news.onerror = () => say(document.getElementById("connection"), "no connection: this page may show an old state");
