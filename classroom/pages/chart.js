// The chart with a bar for each configuration, whose height is the number of nodes that can move. It is also the timeline.
const MOST_STEP = 60, LEAST_SHOWN = 12; // the most pixels of a bar; the least number of bars for which there is room
const LEAST_TEXT = 12.5, TEXT_SHARE = 0.2; // the least size of texts in pixels; their size as a share of the chart's height

class Chart {
  // `bars` has for each configuration: its number, how many nodes can move (null if that isn't known), how many were chosen, the
  // kind of event that led to it, and whether it is stable.
  constructor(svg, bars, edits, go) {
    Object.assign(this, { svg, bars, edits, go, now: 0 });
    let isDown = false;
    const at = (event) => this.choose(Math.floor((event.clientX - svg.getBoundingClientRect().left - this.left) / this.step));
    svg.addEventListener("pointerdown", (event) => { isDown = true; svg.setPointerCapture(event.pointerId); at(event); });
    svg.addEventListener("pointermove", (event) => { if (isDown) at(event); });
    for (const end of ["pointerup", "pointercancel"]) svg.addEventListener(end, () => { isDown = false; });
    this.layers = Object.fromEntries(["base", "can", "moved", "calm", "frame"].map((name) => [name, element("path", { class: name })]));
    this.texts = element("g", {});
    svg.append(...Object.values(this.layers), this.texts);
    new ResizeObserver(() => this.draw()).observe(svg);
  }

  choose(bar) { if (this.go && this.bars.length > 0) this.go(Math.max(0, Math.min(this.bars.length - 1, bar))); }

  // Draws all bars. The height of a bar is the number of nodes that can move, and its filled part the number of chosen ones.
  draw() {
    const wide = this.svg.clientWidth, high = this.svg.clientHeight, { bars } = this;
    if (!wide || !high) return;
    this.svg.setAttribute("viewBox", `0 0 ${wide} ${high}`);
    this.text = Math.max(LEAST_TEXT, high * TEXT_SHARE);
    this.left = this.text * 2.2;
    this.base = high - this.text * 1.3;
    this.step = Math.min((wide - this.left - 4) / Math.max(bars.length, LEAST_SHOWN), MOST_STEP);
    this.most = Math.max(1, ...bars.map((bar) => bar.can || 0));
    const can = [], moved = [], calm = [];
    bars.forEach((bar, index) => {
      const x = this.left + index * this.step + (this.step > 4 ? 1 : 0), width = Math.max(0.5, this.step - (this.step > 4 ? 2 : 0));
      if (bar.can) can.push(this.box(x, width, bar.can));
      if (bar.moved) moved.push(this.box(x, width, Math.min(bar.moved, bar.can ?? bar.moved)));
      if (bar.calm) calm.push(this.dot(x + width / 2, Math.min(4, Math.max(1, width / 2))));
    });
    this.layers.base.setAttribute("d", `M${this.left} ${this.base}H${wide}`);
    for (const [name, parts] of Object.entries({ can, moved, calm })) this.layers[name].setAttribute("d", parts.join(""));
    this.layers.can.setAttribute("stroke-width", this.step > 6 ? 1 : 0);
    this.show(this.now);
  }

  high(count) { return (this.base - 9) * count / this.most; }

  box(x, width, count) {
    const high = this.high(count);
    return `M${x.toFixed(1)} ${this.base}v${(-high).toFixed(1)}h${width.toFixed(1)}v${high.toFixed(1)}z`;
  }

  dot(x, radius) { return `M${x - radius} ${this.base - 5}a${radius} ${radius} 0 1 1 ${2 * radius} 0a${radius} ${radius} 0 1 1 ${-2 * radius} 0z`; }

  // Draws a frame around the bar of a configuration. Also writes the numbers of as many configurations as there is room for.
  show(now) {
    this.now = now;
    if (!this.step) return;
    const x = this.left + now * this.step, every = Math.ceil(this.text * 2.4 / this.step);
    this.layers.frame.setAttribute("d", `M${x} 1h${Math.max(3, this.step)}V${this.base}h${-Math.max(3, this.step)}z`);
    const texts = [element("text", { x: this.left - 5, y: this.text + 4, class: "end" }, this.most), element("text", { x: this.left - 5, y: this.base, class: "end" }, 0)];
    const own = Math.ceil(this.text * 2.4 / this.step);
    this.bars.forEach((bar, index) => {
      const middle = this.left + (index + 0.5) * this.step;
      if (index === now || index % every === 0 && Math.abs(index - now) >= own) {
        texts.push(element("text", { x: middle, y: this.base + this.text * 1.1, class: index === now ? "now" : "" }, bar.number));
      }
      if (this.edits.includes(bar.kind) && this.step >= this.text) {
        texts.push(element("text", { x: middle, y: Math.max(this.text, this.base - this.high(bar.can || 0) - 3), class: "bolt" }, "⚡"));
      }
    });
    for (const text of texts) text.setAttribute("font-size", this.text);
    this.texts.replaceChildren(...texts);
    const bar = this.bars[now];
    if (!bar || !this.go) return;
    const told = `step ${bar.number}: ${bar.calm ? "at rest" : counted(bar.can, "node") + " can move"}`;
    for (const [name, value] of [["valuemin", 0], ["valuemax", this.bars.length - 1], ["valuenow", now], ["valuetext", told]]) this.svg.setAttribute("aria-" + name, value);
  }
}
