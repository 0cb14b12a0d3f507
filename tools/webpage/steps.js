/* The cursor: its slider, its buttons, its keys, and the play button. */
"use strict";

const STEPS_A_SECOND = 8, FAR = 10;

class Steps {
  constructor(page) {
    this.page = page;
    this.view = page.view;
    this.timer = null;
    this.slider = d3.select("#cursor").attr("max", this.view.stops.length - 1);
    this.slider.on("input", () => this.view.moveCursor(Number(this.slider.property("value"))));
    d3.select("#back").on("click", () => this.view.moveCursor(this.view.cursor - 1));
    d3.select("#forth").on("click", () => this.view.moveCursor(this.view.cursor + 1));
    this.button = d3.select("#play").on("click", () => this.play(this.timer === null));
    d3.select("#closer").on("click", () => this.zoom(2));
    d3.select("#farther").on("click", () => this.zoom(0.5));
    d3.select("#whole").on("click", () => this.view.showWhole());
    d3.select(document).on("keydown", first => this.press(eventOf(first)));
    this.view.listen(what => what === "cursor" && this.update());
    this.update();
  }

  get isPlaying() {
    return this.timer !== null;
  }

  /** Starts from the beginning if the cursor is at the end. */
  play(isPlaying) {
    clearInterval(this.timer);
    this.timer = null;
    if (isPlaying) {
      if (this.view.cursor === this.view.stops.length - 1) this.view.moveCursor(0);
      this.timer = setInterval(() => this.step(), 1000 / STEPS_A_SECOND);
    }
    const [sign, word] = isPlaying ? ["&#9632;", "stop"] : ["&#9654;", "play"];
    this.button.attr("aria-pressed", String(isPlaying)).html(`<span aria-hidden="true">${sign}</span> ${word}`);
    this.update();
  }

  step() {
    this.view.moveCursor(this.view.cursor + 1);
    if (this.view.cursor === this.view.stops.length - 1) this.play(false);
  }

  /** Around the cursor, and in the target that has the focus around its region too. */
  zoom(factor) {
    this.view.zoomTime(factor);
    const lane = this.page.focusedLane();
    if (lane) this.view.zoomPages(lane.number, factor, lane.probed ?? d3.mean(this.view.pages[lane.number]));
  }

  press(event) {
    const { target } = event;
    if (event.ctrlKey || event.altKey || event.metaKey) return;
    // What has the focus keeps the keys that it has a use for.
    if (target === this.slider.node() && /^(Arrow|Home|End|Page)/.test(event.key)) return;
    if (event.key === " " && target.closest?.("button, input, summary")) return;
    const action = this.actionOf(event.key, event.shiftKey ? FAR : 1);
    if (!action) return;
    event.preventDefault();
    action();
  }

  actionOf(key, steps) {
    const { view } = this;
    return {
      ArrowLeft: () => view.moveCursor(view.cursor - steps),
      ArrowRight: () => view.moveCursor(view.cursor + steps),
      Home: () => view.moveCursor(0),
      End: () => view.moveCursor(view.stops.length - 1),
      " ": () => this.play(!this.isPlaying),
      "+": () => this.zoom(2),
      "=": () => this.zoom(2),
      "-": () => this.zoom(0.5),
      0: () => view.showWhole(),
      d: view.reports.length > 1 ? () => this.page.switchMode(!view.isDifference) : null,
    }[key];
  }

  update() {
    const { view } = this, words = `${d3.format(",d")(view.tick)} of ${d3.format(",d")(view.end)}`;
    const place = `${view.cursor + 1} of ${view.stops.length}`;
    this.slider.property("value", view.cursor).attr("aria-valuetext", `interval ${words}, aggregation ${place}`);
    d3.select("#position").text(`interval ${words}, aggregation ${place}`);
    if (!this.isPlaying) this.page.say(`interval ${words}, aggregation ${place}`);
  }
}
