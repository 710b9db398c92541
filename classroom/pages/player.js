// Plays a run. Each frame of the page's data has what changed since the frame before.
const SNAPSHOT_EVERY = 50;
const LISTED = 60; // the number of events that are listed before the current one, and after it
const NEAR_END = 20; // if the current event is nearer to an end of the list than this, other events are listed
const REST = 200; // milliseconds without a step after which the page's address gets the place
const TURN = 900; // milliseconds between two steps while a run is played

class Run {
  constructor(data) {
    this.frames = data.frames;
    this.snapshots = [];
    this.state = new State(data.nodes.length, data.links.length);
    this.at = -1;
    this.goTo(0);
  }

  // Computes the state after a frame, from the nearest state that is stored.
  goTo(target) {
    if (target < this.at) {
      const kept = Math.floor(target / SNAPSHOT_EVERY);
      this.state = this.snapshots[kept].copy();
      this.at = kept * SNAPSHOT_EVERY;
    }
    while (this.at < target) {
      this.at += 1;
      this.state.apply(this.frames[this.at], this.at);
      if (this.at % SNAPSHOT_EVERY === 0 && this.snapshots.length === this.at / SNAPSHOT_EVERY) {
        this.snapshots.push(this.state.copy());
      }
    }
  }
}

// Returns the configurations of a run, each with its first and last frame and the data for its bar in the chart.
function configurationsOf(data) {
  const rules = new Int8Array(data.nodes.length), chosen = new Int8Array(data.nodes.length), found = [];
  let can = 0, moved = 0;
  data.frames.forEach((frame, at) => {
    for (const [node, rule] of frame.privileged || []) { can += (rule > 0) - (rules[node] > 0); rules[node] = rule; }
    const before = moved;
    for (const [node, rule] of frame.chosen || []) { moved += (rule > 0) - (chosen[node] > 0); chosen[node] = rule; }
    const last = found[found.length - 1];
    if (last && last.number === frame.number) Object.assign(last, { end: at, moved });
    else {
      if (last && frame.kind === "close") last.moved = before;
      found.push({ number: frame.number, first: at, end: at, can, moved, kind: frame.kind, calm: frame.stable });
    }
  });
  return found;
}

class Player {
  constructor(run, drawing, data, document) {
    this.run = run;
    this.drawing = drawing;
    this.data = data;
    this.document = document;
    this.aside = new Aside(document);
    this.find = this.aside.find;
    this.at = -1;
    this.timer = null;
    this.resting = null;
    this.picked = null;
    this.address = location.hash;
    this.configurations = configurationsOf(data);
    this.configurationOf = [];
    this.configurations.forEach((it, index) => { for (let at = it.first; at <= it.end; at += 1) this.configurationOf.push(index); });
    this.last = run.frames.length - 1;
    this.chart = new Chart(this.find("chart"), this.configurations, data.edits, (bar) => this.goTo(this.configurations[bar].first));
    this.listen(document);
  }

  listen(document) {
    const { find } = this;
    const buttons = {
      first: () => this.goTo(0), play: () => this.toggle(), forward: () => this.goTo(this.at + 1, true), last: () => this.goTo(this.last),
      earlier: () => this.goTo(this.earlier()), later: () => this.goTo(this.later(), true), back: () => this.goTo(this.at - 1),
      "story-close": () => this.pick(null),
    };
    for (const [name, act] of Object.entries(buttons)) if (find(name)) find(name).addEventListener("click", act);
    const keys = {
      ArrowLeft: buttons.back, ArrowRight: buttons.forward, ArrowUp: buttons.earlier, ArrowDown: buttons.later,
      PageUp: buttons.earlier, PageDown: buttons.later, Home: buttons.first, End: buttons.last, " ": buttons.play, Escape: buttons["story-close"],
    };
    document.addEventListener("keydown", (event) => {
      const act = keys[event.key];
      if (!act || event.ctrlKey || event.altKey || event.metaKey || event.target.tagName === "SELECT") return;
      if (event.key === " " && ["BUTTON", "SUMMARY", "A"].includes(event.target.tagName)) return;
      event.preventDefault();
      act();
    });
    window.addEventListener("hashchange", () => this.follow());
    nodeButtons(this.drawing, (node) => this.pick(this.picked === node ? null : node));
    new ResizeObserver(() => this.centre()).observe(find("events"));
  }

  configuration() { return this.configurationOf[this.at]; }

  earlier() {
    const current = this.configuration(), { first } = this.configurations[current];
    return first < this.at ? first : this.configurations[Math.max(0, current - 1)].first;
  }

  later() { return this.configurations[this.configuration() + 1]?.first ?? this.last; }

  // Returns the next place while a run is played: first the one at which all moves of a step are chosen, then the one after the step.
  following() {
    const { end } = this.configurations[this.configuration()];
    return this.at < end ? end : this.later();
  }

  // Goes to the place or the step that the page's address names.
  follow() {
    this.address = location.hash;
    const place = /^#p=(\d+)$/.exec(location.hash), step = /^#step=(\d+)$/.exec(location.hash);
    const found = step && this.configurations.find((it) => it.number >= Number(step[1]));
    this.goTo(place ? Number(place[1]) : step ? (found ? found.first : this.last) : Math.max(this.at, 0));
  }

  goTo(target, moves = false) {
    const at = Math.min(Math.max(target, 0), this.last);
    if (at === this.at) return;
    this.at = at;
    this.run.goTo(at);
    const frame = this.run.frames[at];
    this.drawing.show(this.run.state, frame, moves);
    this.tell(frame);
    clearTimeout(this.resting);
    this.resting = setTimeout(() => this.writeAddress(), REST);
  }

  // Writes the place into the page's address. `goTo` calls this only after a pause, since a browser accepts few new addresses a
  // second. If the reader has typed another address meanwhile, doesn't overwrite it.
  writeAddress() {
    if (location.hash !== this.address) return;
    this.address = "#p=" + this.at;
    if (location.hash !== this.address) history.replaceState(null, "", this.address);
  }

  tell(frame) {
    this.aside.tell(this.run.state, frame);
    this.aside.say("event", this.line(frame));
    this.find("moment").href = "#step=" + frame.number;
    this.chart.show(this.configuration());
    this.list();
    if (this.picked !== null) this.tellStory();
  }

  line(frame) { return frame.kind ? `event ${frame.place}: ${toldEvent(this.data, frame)}` : "the beginning of the run"; }

  // Lists the events around the current one, which is in the middle, and marks those of its step.
  list() {
    const isNear = this.rows && (this.at - this.from >= NEAR_END || this.from === 0) && (this.from + this.rows.length - this.at > NEAR_END || this.from + this.rows.length > this.last);
    if (!isNear) {
      this.from = Math.max(0, this.at - LISTED);
      this.rows = this.run.frames.slice(this.from, this.at + LISTED + 1).map((frame, index) => this.row(this.from + index));
      this.find("events").replaceChildren(...this.rows);
    }
    const current = this.configuration();
    this.rows.forEach((row, index) => {
      const at = this.from + index;
      row.classList.toggle("on", this.configurationOf[at] === current);
      row.classList.toggle("later", at > this.at);
      if (at === this.at) row.firstChild.setAttribute("aria-current", "step");
      else row.firstChild.removeAttribute("aria-current");
    });
    this.centre();
  }

  centre() {
    const row = this.rows && this.rows[this.at - this.from], list = this.find("events");
    if (row) list.scrollTop = row.offsetTop - (list.clientHeight - row.offsetHeight) / 2;
  }

  row(at) {
    const frame = this.run.frames[at], row = this.document.createElement("li"), link = this.document.createElement("a");
    const number = this.document.createElement("b"), text = this.document.createElement("span");
    const isFirst = this.configurations[this.configurationOf[at]].first === at;
    number.textContent = isFirst ? frame.number : "";
    text.textContent = toldEvent(this.data, frame).replace(/^node /, ""); // so that most events fit into a line
    link.href = "#p=" + at;
    link.title = this.line(frame);
    link.append(number, text);
    link.addEventListener("click", (event) => { event.preventDefault(); this.goTo(at); });
    row.classList.toggle("fault", this.data.edits.includes(frame.kind));
    row.append(link);
    return row;
  }

  // Shows a node's present values, and all events that name the node. Hides them if there is no node.
  pick(node) {
    if (this.picked !== null) this.drawing.nodes[this.picked].group.classList.remove("picked");
    this.picked = node;
    this.find("story").hidden = node === null;
    if (node !== null) {
      this.drawing.nodes[node].group.classList.add("picked");
      this.aside.say("story-name", `Node ${this.data.nodes[node].id} · ${this.data.nodes[node].owners.join(", ") || "the house"}`);
      const own = this.run.frames.map((frame, at) => at).filter((at) => (this.run.frames[at].nodes || []).includes(node));
      this.find("story-events").replaceChildren(...own.map((at) => this.row(at)));
      this.tellStory();
    }
    this.centre();
  }

  tellStory() { this.aside.say("story-now", this.drawing.describe(this.picked, this.run.state).split(", ").slice(1).join(", ")); }

  toggle() {
    if (this.timer !== null) return this.stop();
    this.find("play").textContent = "❚❚ Pause";
    const turn = () => {
      if (this.at >= this.last) return this.stop();
      this.goTo(this.following(), true);
      this.timer = setTimeout(turn, TURN / Number(this.find("speed").value));
    };
    if (this.at >= this.last) this.goTo(0);
    this.timer = setTimeout(turn, TURN / Number(this.find("speed").value));
  }

  stop() {
    clearTimeout(this.timer);
    this.timer = null;
    this.find("play").textContent = "▶ Play";
  }
}

async function begin() {
  const data = await dataOf(document), root = document.getElementById("drawing");
  splitLinks(root);
  const player = new Player(new Run(data), new Drawing(root, data), data, document);
  wholeScreen(document);
  witnessButton(document);
  player.follow();
  window.player = player;
  document.body.dataset.ready = "true";
}

begin();
