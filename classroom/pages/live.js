// Shows a run that continues, and sends the teacher's commands. The server sends changes of the state. The first change is
// from a state in which nothing is known.
const LINES = 6;
const WAITED = 12; // the most nodes that are listed among those for which the class waits
const ENDS = "end"; // the button that asks before it sends its line, and then sends the line twice

class Live {
  constructor(data, drawing, document) {
    this.data = data;
    this.drawing = drawing;
    this.document = document;
    this.aside = new Aside(document);
    this.find = this.aside.find;
    this.count = 0;
    this.frozen = false;
    this.picked = null;
    this.bars = [];
    this.chart = new Chart(this.find("chart"), this.bars, data.edits, null);
    document.body.classList.toggle("looks", !data.acts);
    this.listen();
    this.source = new EventSource("events");
    this.source.onmessage = (event) => this.take(JSON.parse(event.data));
    this.source.onerror = () => this.aside.say("connection", "(no connection: this page may show an old state)");
  }

  take(row) {
    if (row.begin) this.begin();
    if (row.new.length > 0) {
      this.data.links.push(...row.new);
      this.state = this.state.copy(this.data.links.length);
      this.drawing.grow();
    }
    this.count += 1;
    this.state.apply(row, this.count);
    for (const [number, can, moved, kind, calm] of row.bars) {
      const bar = { number, can, moved, kind, calm }, last = this.bars[this.bars.length - 1];
      if (last && last.number === number) this.bars[this.bars.length - 1] = bar;
      else this.bars.push(bar);
    }
    this.event = row.events[row.events.length - 1] || this.event;
    this.lines = [...this.lines, ...row.lines].slice(-LINES);
    this.row = row;
    if (!this.frozen) this.show(!row.begin);
    this.document.body.dataset.ready = "true";
    if (row.ended) this.end();
  }

  begin() {
    this.data.links.length = 0;
    this.drawing.empty();
    this.state = new State(this.data.nodes.length, 0);
    this.event = "";
    this.lines = [];
    this.bars.length = 0;
    this.aside.say("connection", "");
  }

  end() {
    this.source.close();
    this.aside.say("connection", "(the run is over)");
    for (const name of Object.keys(this.data.buttons)) this.find(name).disabled = true;
  }

  show(moves = false) {
    const { row } = this;
    this.drawing.show(this.state, row, moves);
    this.aside.tell(this.state, row);
    this.aside.say("event", this.event || "the beginning of the run");
    this.showClosing(row.closing);
    this.showWaits();
    this.list("lines", this.lines);
    this.chart.now = this.bars.length - 1;
    this.chart.draw();
  }

  // Shows how steps are closed, as a text and by the buttons.
  showClosing(closing) {
    const [name, seconds] = closing.split(":");
    const words = { "by-hand": "steps are closed by hand", "when-idle": `steps are closed ${seconds} s after the last move`, every: `steps are closed every ${seconds} s` };
    this.aside.say("closes", words[name] || `steps are closed by the daemon ${closing}`);
    this.find("closes").dataset.closing = closing;
    for (const each of Object.keys(words)) this.find(each).setAttribute("aria-pressed", String(each === name));
  }

  // Lists the nodes for which the class waits: those that can move, by the report, and have no chosen move.
  showWaits() {
    const { state, data } = this, nodes = [...data.nodes.keys()].filter((node) => state.rule[node] > 0 && state.chosen[node] === 0);
    const chosen = state.chosen.reduce((sum, rule) => sum + (rule > 0), 0);
    this.aside.say("waiting", nodes.length > 0 ? `Waiting for ${counted(nodes.length, "node")}` : chosen > 0 ? "Waiting for the step to be closed" : "No node can move");
    this.aside.say("close", `Close the step · ${chosen} of ${nodes.length + chosen}`);
    const rows = nodes.slice(0, WAITED).map((node) => this.waited(node));
    if (nodes.length > WAITED) rows.push(Object.assign(this.document.createElement("li"), { textContent: `and ${nodes.length - WAITED} more` }));
    this.find("waits").replaceChildren(...rows);
  }

  waited(node) {
    const row = this.document.createElement("li"), { id, owners } = this.data.nodes[node];
    const texts = [["b", String(id)], ["span", owners.join(", ") || "the house"], ["i", this.data.rules[this.state.rule[node]]]];
    row.append(...texts.map(([name, text]) => Object.assign(this.document.createElement(name), { textContent: text })));
    return row;
  }

  list(name, texts) {
    this.find(name).replaceChildren(...texts.map((text) => {
      const row = this.document.createElement("li");
      row.textContent = text;
      return row;
    }));
  }

  async act(line) {
    const answer = await fetch("act", { method: "POST", body: line }).catch(() => null);
    if (answer === null || !answer.ok) this.aside.say("connection", "(the command wasn't sent: try again)");
  }

  listen() {
    const { find } = this;
    for (const [name, line] of Object.entries(this.data.buttons)) {
      const button = find(name), submits = button.form !== null && button.type === "submit";
      button.classList.add("btn");
      (submits ? button.form : button).addEventListener(submits ? "submit" : "click", (event) => {
        event.preventDefault();
        if (name === ENDS) find("ask").showModal();
        else this.send(line);
      });
    }
    find("close").classList.add("main");
    find("ask").addEventListener("close", async () => {
      if (find("ask").returnValue !== ENDS) return;
      for (let times = 0; times < 2; times += 1) await this.act(this.data.buttons[ENDS]);
    });
    find("freeze").addEventListener("click", () => this.freeze());
    find("cancel").addEventListener("click", () => this.pick(null));
    find("tools").addEventListener("change", () => this.pick(null));
    if (this.data.acts) nodeButtons(this.drawing, (node) => this.click(node));
    this.document.addEventListener("keydown", (event) => { if (event.key === "Escape") this.pick(null); });
    new ResizeObserver(() => this.placePanel()).observe(find("panel").parentNode);
  }

  // Sends the line of a button. In the line, #NAME stands for the value of that field, and #picked for the picked node. If the
  // line has #picked, the node isn't picked any longer.
  send(line) {
    this.act(line.replace(/#(\w+)/g, (_, field) => (field === "picked" ? this.idOf(this.picked) : this.find(field).value)));
    if (line.includes("#picked")) this.pick(null);
  }

  idOf(node) { return this.data.nodes[node].id; }

  freeze() {
    this.frozen = !this.frozen;
    this.find("freeze").setAttribute("aria-pressed", String(this.frozen));
    this.aside.say("freeze", this.frozen ? "Show the present" : "Freeze the picture");
    if (!this.frozen) this.show();
  }

  click(node) {
    if (this.find("tool-fault").checked || this.picked === null) return this.pick(node);
    const [a, b] = [this.picked, node];
    this.pick(null);
    if (a !== b) this.act(`${this.data.byLinks[this.neighbours(a).includes(b) ? -1 : 1]} ${this.idOf(a)} ${this.idOf(b)}`);
  }

  neighbours(node) {
    const near = [];
    this.data.links.forEach(([a, b], link) => {
      if (this.state.linked[link] > 0 && (a === node || b === node)) near.push(a === node ? b : a);
    });
    return near.sort((a, b) => this.idOf(a) - this.idOf(b));
  }

  // Opens the panel for a node, or closes it.
  pick(node) {
    if (this.picked !== null) this.drawing.nodes[this.picked].group.classList.remove("picked");
    this.picked = node;
    this.find("panel").hidden = node === null;
    if (node === null) return;
    this.drawing.nodes[node].group.classList.add("picked");
    const setting = this.find("tool-fault").checked;
    this.find("setting").hidden = !setting;
    this.find("second").hidden = setting;
    this.aside.say("picked", String(this.idOf(node)));
    this.aside.say("owners", this.data.nodes[node].owners.join(", ") || "the house");
    const words = ["null", ...this.neighbours(node).map((near) => String(this.idOf(near)))];
    this.find("p").replaceChildren(...words.map((word) => new Option(word, word)));
    this.find("p").value = this.state.pointer[node] < 0 ? "null" : String(this.idOf(this.state.pointer[node]));
    this.find("m").value = String(this.state.m[node] > 0);
    this.find("release").disabled = this.state.chosen[node] === 0;
    this.placePanel();
    if (setting) this.find("p").focus({ preventScroll: true });
  }

  // Moves the panel beside the picked node, to the side that has room for it.
  placePanel() {
    if (this.picked === null) return;
    const panel = this.find("panel"), stage = panel.parentNode.getBoundingClientRect();
    const disc = this.drawing.nodes[this.picked].disc.getBoundingClientRect(), gap = disc.width / 4 + 6;
    const right = disc.right - stage.left + gap, left = disc.left - stage.left - gap - panel.offsetWidth;
    const x = right + panel.offsetWidth <= stage.width ? right : Math.max(0, left);
    const y = (disc.top + disc.bottom) / 2 - stage.top - panel.offsetHeight / 2;
    panel.style.left = x + "px";
    panel.style.top = Math.max(0, Math.min(stage.height - panel.offsetHeight, y)) + "px";
  }
}

async function begin() {
  const data = await dataOf(document), root = document.getElementById("drawing");
  splitLinks(root);
  wholeScreen(document);
  witnessButton(document);
  window.live = new Live(data, new Drawing(root, data), document);
}

begin();
