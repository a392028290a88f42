"use strict";
// The hand on the pictures: handles that are dragged, or moved by keyboard, and how a picture follows.

const CLIMBING = "A climb is on its way: stop it first, or wait for its end.";
let drag = null;

// A handle has what is moved (node, and stage, 0 for the offset), where it stands now, and how its picture follows.

const within = seconds => (seconds % state.cycle + state.cycle) % state.cycle;
const round = seconds => within(Math.round(seconds / state.step) * state.step);

// How many of the picture's units a second takes, by its own attributes.
function scaleOf(svg) {
  return (svg.dataset.right - svg.dataset.left) / svg.dataset.seconds;
}

function gripSignals() {
  const svg = byId("signals").querySelector("svg");
  if (!svg) return;
  svg.setAttribute("role", "group");
  for (const node of state.nodes) {
    const group = svg.querySelector(`g.node-${node.number}`);
    const follow = (stage, by) => redraw(group, node, scaleOf(svg), Number(svg.dataset.left), stage, by);
    grip([...group.querySelectorAll(".name")], { node: node.number, stage: 0, now: node.offset, svg, key: `offset-${node.number}`,
      label: `offset of junction ${node.number} ${node.name}`, follow: by => follow(0, by) });
    for (const stage of node.stages)
      grip([...group.querySelectorAll(`.stage-${stage.number}`)], { node: node.number, stage: stage.number, now: stage.at, svg,
        key: `stage-${node.number}-${stage.number}`, follow: by => follow(stage.number, by),
        label: `stage ${stage.number} of junction ${node.number} ${stage.name} begins at` });
  }
}

// A junction's bar while a stage, or with stage 0 all of them, begins so much later.
function redraw(group, node, scale, left, moved, by) {
  for (const old of group.querySelectorAll(".ghost")) old.remove();
  for (const part of group.querySelectorAll(".stage, .at, .label, line"))
    if (by) part.setAttribute("display", "none"); else part.removeAttribute("display");
  if (!by) return;
  const begins = node.stages.map(stage => within(stage.at + (moved === 0 || moved === stage.number ? by : 0)));
  node.stages.forEach((stage, place) => {
    const begin = begins[place], lasts = within(begins[(place + 1) % begins.length] - begin) || state.cycle;
    const clearing = Math.min(stage.intergreen, lasts);
    for (const [kind, from, long] of [["intergreen", begin, clearing], ["green", begin + clearing, lasts - clearing]]) {
      const model = group.querySelector(`.stage-${stage.number}.${kind}:not(.ghost)`);
      for (const turn of [0, -state.cycle]) {
        const first = Math.max(0, within(from) + turn), end = Math.min(state.cycle, within(from) + turn + long);
        if (model && end > first) ghost(group, model, left + first * scale, (end - first) * scale);
      }
    }
  });
}

function ghost(group, model, x, wide) {
  const made = model.cloneNode(true);
  made.removeAttribute("display");
  for (const name of ["tabindex", "role", "data-key"]) made.removeAttribute(name);
  made.classList.add("ghost");
  made.setAttribute("x", x);
  made.setAttribute("width", wide);
  group.append(made);
}

function gripRoad() {
  const svg = byId("road").querySelector("svg");
  if (!svg) return;
  svg.setAttribute("role", "group");
  for (const node of state.nodes) {
    const lanes = [...svg.querySelectorAll(`g.lane.node-${node.number}`)];
    const names = svg.querySelectorAll(`.name.node-${node.number}`);
    for (const lane of lanes) fill(lane);
    const follow = by => lanes.forEach(lane =>
      lane.setAttribute("transform", `translate(${by % state.cycle * scaleOf(svg)} 0)`));
    if (lanes.length) grip([...lanes, ...names], { node: node.number, stage: 0, now: node.offset, svg, key: `road-${node.number}`,
      label: `offset of junction ${node.number} ${node.name}`, follow });
  }
}

// An area that can't be seen, so that a lane is gripped between its bars too.
function fill(lane) {
  const box = lane.getBBox(), area = document.createElementNS("http://www.w3.org/2000/svg", "rect");
  for (const name of ["x", "y", "width", "height"]) area.setAttribute(name, box[name]);
  area.setAttribute("fill-opacity", "0");
  lane.prepend(area);
}

function grip(parts, handle) {
  parts.forEach((part, place) => {
    part.classList.add("grip");
    part.addEventListener("pointerdown", event => begin(event, parts[0], handle));
    if (place) return;
    part.setAttribute("tabindex", "0");
    part.setAttribute("role", "slider");
    part.setAttribute("aria-valuemin", "0");
    part.setAttribute("aria-valuemax", shown(state.cycle - state.step));
    part.setAttribute("aria-label", handle.label);
    part.dataset.key = handle.key;
    value(part, handle.now);
    part.addEventListener("keydown", event => key(event, part, handle));
    part.addEventListener("blur", () => {
      if (!handle.by || drag) return;
      handle.by = 0;
      handle.follow(0);
      value(part, handle.now);
    });
  });
}

function value(part, seconds) {
  part.setAttribute("aria-valuenow", shown(seconds));
  part.setAttribute("aria-valuetext", `${shown(seconds)} s`);
}

function follow(handle, by) {
  handle.follow(by);
  tell(`${handle.label} ${shown(round(handle.now + by))} s`, false);
}

function begin(event, part, handle) {
  if (event.button) return;
  event.preventDefault();
  if (state.climbing) { note(CLIMBING, { x: event.pageX, y: event.pageY }); return; }
  note("", null);
  part.focus({ preventScroll: true });
  handle.svg.setPointerCapture(event.pointerId); // which goes on where what was gripped is drawn anew
  const units = handle.svg.viewBox.baseVal.width / handle.svg.getBoundingClientRect().width;
  drag = { handle, from: event.clientX, seconds: units / scaleOf(handle.svg), by: 0 };
}

addEventListener("pointermove", event => {
  if (!drag) return;
  drag.by = (event.clientX - drag.from) * drag.seconds;
  follow(drag.handle, drag.by);
});

addEventListener("pointerup", event => {
  if (!drag) return;
  const { handle, by } = drag;
  drag = null;
  settle(handle, by, { x: event.pageX, y: event.pageY });
});

addEventListener("pointercancel", leave);

addEventListener("keydown", event => { if (event.key === "Escape" && drag) leave(); });

function leave() {
  drag = null;
  if (!state) return;
  show(state);
  tell("", false);
  note("", null);
}

function settle(handle, by, at) {
  const seconds = round(handle.now + by);
  if (Math.abs(seconds - handle.now) < 1e-6) { leave(); return; }
  change("/edit", { node: handle.node, stage: handle.stage, seconds: shown(seconds) }, at);
}

function key(event, part, handle) {
  const by = { ArrowLeft: -1, ArrowRight: 1, ArrowDown: -1, ArrowUp: 1, PageDown: -5, PageUp: 5 }[event.key];
  if (by !== undefined) {
    event.preventDefault();
    if (state.climbing) { note(CLIMBING, below(part)); return; }
    handle.by = (handle.by || 0) + by * state.step;
    follow(handle, handle.by);
    value(part, round(handle.now + handle.by));
  } else if (event.key === "Enter" && handle.by) settle(handle, handle.by, below(part));
  else if (event.key === "Escape") leave();
}
