"use strict";
// A student's page: it says hello, shows what is in the server's replies, and asks for the moves that the student chooses.

// Yields the lines of a text that arrives in pieces.
async function* linesOf(body) {
  const reader = body.pipeThrough(new TextDecoderStream()).getReader();
  for (let rest = ""; ;) {
    const { done, value } = await reader.read();
    if (done) return;
    const lines = (rest + value).split("\n");
    rest = lines.pop();
    yield* lines;
  }
}

const VERBS = { update: "update m", marriage: "marry", seduction: "seduce", abandonment: "abandon" };
const HOLDS = "can be applied now";
// For some denials, the reason why a move was denied, as text. For any other denial, the server's own text is shown.
const WHY = {
  guard: (rule) => `the guard of ${rule} doesn't hold at this node now`,
  stale: () => "the configuration has changed meanwhile: choose again",
  chosen: () => "a move of this node is chosen already, and is applied when the step closes",
  "not-owner": () => "this node isn't yours",
};
// What each refusal means, and what to do.
const REFUSED = {
  memory: "the server is out of memory: try again a little later",
  full: "the server grants no more moves: ask your teacher",
  journal: "the server grants no more moves: ask your teacher",
};

// Shows the registers and the rules of one node.
class Card {
  constructor(root, node, ask) {
    this.root = root;
    this.node = node;
    this.ask = ask;
    this.select = root.querySelector("select");
    this.say(".id", String(node));
    for (const rule of root.querySelectorAll("[data-rule]")) {
      rule.querySelector("button").addEventListener("click", () => ask(this, rule.dataset.rule, Number(this.select.value)));
    }
  }

  say(selector, text) {
    const element = this.root.querySelector(selector);
    if (element.textContent !== text) element.textContent = text;
  }

  show(look, isQuiz) {
    this.say(".p", look.p === null ? "null" : String(look.p));
    this.say(".m-of", String(look.m));
    this.root.querySelector("tbody").replaceChildren(...look.near.map((near) => this.row(near, look.pointing.includes(near.node))));
    const names = look.near.map((near) => String(near.node));
    if (names.join() !== [...this.select.options].map((option) => option.value).join()) {
      const before = this.select.value;
      this.select.replaceChildren(...names.map((name) => new Option(name, name)));
      if (names.includes(before)) this.select.value = before;
    }
    this.showDoing(look, isQuiz);
    for (const rule of this.root.querySelectorAll("[data-rule]")) {
      const holds = rule.dataset.rule === look.rule && !isQuiz;
      rule.dataset.holds = String(holds);
      rule.querySelector(".guard").textContent = holds ? HOLDS : "";
    }
    if (isQuiz) this.root.querySelector("details").open = true;
  }

  // Shows the moves that are possible now as large buttons, or why there is nothing to do.
  showDoing(look, isQuiz) {
    const isOpen = look.rule !== null && look.chosen === null, partners = look.rule === "marriage" ? look.pointing : [null];
    const texts = isOpen && !isQuiz ? partners.map((partner) => [partner, `Node ${this.node}: ${VERBS[look.rule]}${partner === null ? "" : " " + partner}`]) : [];
    const before = [...this.root.querySelectorAll(".act")].map((button) => button.textContent);
    if (before.join() !== texts.map(([, text]) => text).join()) this.root.querySelector(".doing").replaceChildren(...texts.map(([partner, text]) => this.button(look.rule, partner, text)));
    const idle = look.chosen !== null ? `${look.chosen} is chosen: it is applied when the step closes` : look.rule === null ? "nothing to do now: wait for the next step" : "";
    this.say(".idle", isQuiz && look.chosen === null ? "which rule can be applied now, if any?" : idle);
  }

  button(rule, partner, text) {
    const button = document.createElement("button");
    Object.assign(button, { type: "button", className: "btn act", textContent: text });
    button.addEventListener("click", () => this.ask(this, rule, partner));
    return button;
  }

  row(near, points) {
    const row = document.createElement("tr");
    row.classList.toggle("points", points);
    row.append(...[near.node, near.p, near.m].map((value) => {
      const cell = document.createElement("td");
      cell.textContent = String(value);
      return cell;
    }));
    return row;
  }
}

class Hand {
  constructor() {
    this.find = (name) => document.getElementById(name);
    this.cards = new Map();
    this.find("enter").addEventListener("submit", (event) => {
      event.preventDefault();
      this.enter();
    });
    this.find("leave").addEventListener("click", () => this.leaves.abort());
    this.find("quiz").addEventListener("click", () => {
      this.find("quiz").setAttribute("aria-pressed", String(document.body.classList.toggle("quiz")));
      if (this.row) this.show(this.row);
    });
    const given = new URLSearchParams(location.hash.slice(1));
    if (given.has("name") && given.has("key")) {
      history.replaceState(null, "", location.pathname);
      for (const name of ["name", "key"]) this.find(name).value = given.get(name);
      this.enter();
    }
  }

  say(name, text) { this.find(name).textContent = text; }

  // Shows the student's nodes if `played` is set, and otherwise the form for name and key.
  play(played) {
    this.find("enter").hidden = played;
    for (const name of ["played", "stage", "nodes", "tools", "state"]) this.find(name).hidden = !played;
    this.find("come").disabled = false;
    document.body.dataset.played = String(played);
  }

  async enter() {
    this.find("come").disabled = true;
    this.say("connection", "Connecting to the server …");
    this.leaves = new AbortController();
    let ended = "";
    try {
      const body = JSON.stringify({ name: this.find("name").value, key: this.find("key").value });
      const answer = await fetch("enter", { method: "POST", body, signal: this.leaves.signal });
      if (answer.ok) for await (const line of linesOf(answer.body)) ended = this.take(JSON.parse(line)) || ended;
      else ended = (await answer.json()).told;
    } catch {
      ended = this.leaves.signal.aborted ? "you clicked Leave" : "";
    }
    this.play(false);
    this.say("connection", `The connection has ended: ${ended || "the page's server doesn't answer"}. To connect again, enter your name and key.`);
  }

  // Handles a line from the page's server. Returns the reason of the end if the line is the last one.
  take(row) {
    if (row.token) {
      this.token = row.token;
      this.say("who", `· ${row.who}`);
      this.say("connection", "");
    }
    if (row.nodes) this.show(row);
    return row.ended;
  }

  show(row) {
    this.row = row;
    this.say("number", String(row.at));
    const isQuiz = document.body.classList.contains("quiz");
    this.find("stage").innerHTML = row.picture;
    if (isQuiz) this.hideRules();
    this.showState(row.nodes, isQuiz);
    const nodes = row.nodes.map((look) => look.node);
    if (nodes.join() !== [...this.cards.keys()].join()) {
      this.cards = new Map(nodes.map((node) => [node, this.card(node)]));
      this.find("nodes").replaceChildren(...[...this.cards.values()].map((card) => card.root));
    }
    for (const look of row.nodes) this.cards.get(look.node).show(look, isQuiz);
    if (document.body.dataset.played !== "true") this.play(true);
  }

  // Shows in a line whether there is anything to do.
  showState(looks, isQuiz) {
    const open = looks.filter((look) => look.rule !== null && look.chosen === null).length;
    const text = isQuiz ? "Which rule can be applied?" : open > 0 ? (looks.length === 1 ? "Your node can move" : `${open} of your ${looks.length} nodes can move`) : "Nothing to do now: wait for the next step";
    if (this.find("told").textContent !== text) this.say("told", text);
    this.find("state").classList.toggle("wait", open === 0 || isQuiz);
  }

  // Removes the enabled rules from the picture, for the quiz.
  hideRules() {
    for (const node of this.find("stage").querySelectorAll('.node[data-chosen=""]')) {
      node.dataset.rule = "";
      node.setAttribute("aria-label", node.getAttribute("aria-label").replace(/, privileged: [a-z]+/, ""));
      node.querySelector(".rule").textContent = "";
    }
  }

  card(node) {
    const root = this.find("node").content.firstElementChild.cloneNode(true);
    return new Card(root, node, (card, rule, partner) => this.ask(card, rule, partner));
  }

  async ask(card, rule, partner) {
    const { at } = this.row, more = rule === "marriage" ? { with: partner } : {};
    const body = JSON.stringify({ token: this.token, node: card.node, at, rule, ...more });
    const answer = await fetch("move", { method: "POST", body }).then((it) => it.json()).catch(() => ({ told: "not sent, since the page's server doesn't answer: try again, or ask your teacher" }));
    card.say(".reply", `step ${at}, ${rule}: ${this.told(answer, rule)}`);
  }

  told(answer, rule) {
    if (answer.ok) return `granted, as event ${answer.place}; the move is applied when the step closes`;
    if (answer.deny) return `denied, since ${(WHY[answer.deny] || (() => answer.text))(rule)} (clause ${answer.clause}, ${answer.deny})`;
    return answer.refuse ? `refused (${answer.refuse}): ${REFUSED[answer.refuse] || "ask your teacher"}` : answer.told;
  }
}

window.hand = new Hand();
