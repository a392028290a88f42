"use strict";
// The page of a board: shows what the program answers, and asks it once at the end of each drag.
// Names come as text nodes alone; pictures are parsed as SVG, in which they are text already.

const WAIT = 5000; // milliseconds after which a long answer is told
const POLL = 150; // milliseconds between two looks at a climb
let secret = null, state = null, polling = false, last = Promise.resolve();
const byId = id => document.getElementById(id);

// Asking.

async function ask(path, body) {
  const late = setTimeout(() => {
    tell("The program is still at work; Stop ends it.", false);
    byId("stop").disabled = false;
  }, WAIT);
  try {
    const answer = await fetch(path, body === undefined ? { headers: { "X-Board": secret } } : {
      method: "POST", headers: { "X-Board": secret, "Content-Type": "application/json" }, body: JSON.stringify(body) });
    if (answer.status === 404) throw new Error("This address isn't the board's any more: open it again from the terminal.");
    return { body: await answer.json() };
  } catch (error) {
    throw error instanceof TypeError ? new Error("The board doesn't answer: it may have ended.") : error;
  } finally { clearTimeout(late); }
}

function tell(sentence, refused) {
  byId("message").textContent = sentence;
  byId("message").className = refused ? "refused" : "";
}

// A sentence at the place that was dragged or typed at, in the page's pixels.
function note(sentence, at) {
  byId("note").hidden = !sentence || !at;
  byId("note").textContent = sentence;
  if (!sentence || !at) return;
  byId("note").style.left = `${Math.max(4, Math.min(at.x, document.documentElement.clientWidth - 360))}px`;
  byId("note").style.top = `${at.y + 8}px`;
}

function below(element) {
  const box = element.getBoundingClientRect();
  return { x: box.left + scrollX, y: box.bottom + scrollY };
}

// One change after another; each names the state that it is made from.
function change(path, body, at) {
  last = last.then(() => changed(path, body, at));
  return last;
}

async function changed(path, body, at) {
  note("", null);
  performance.clearMarks("asked");
  performance.mark("asked");
  try {
    const { body: answer } = await ask(path, { version: state.version, ...(body || {}) });
    show(answer);
    tell(answer.message || "", answer.refused === true && !answer.stale);
    if (answer.refused) note(answer.message, at);
  } catch (error) { show(state); tell(error.message, true); }
  document.body.getBoundingClientRect(); // so that the page's new layout counts
  performance.measure("answer", "asked");
}

// Showing.

function show(view) {
  const focus = document.activeElement && document.activeElement.dataset ? document.activeElement.dataset.key : null;
  if (!view || view.version === undefined) return;
  if (!state || view.version !== state.version) byId("sensitivity-part").hidden = true;
  state = view;
  if (drag) return; // the hand's end shows it
  byId("town").textContent = view.town || "Board";
  document.title = view.town || "Board";
  showButtons(view);
  showTook(view);
  showTables(view);
  for (const id of ["road", "signals", "saturation"]) picture(id, view[id]);
  byId("road-part").hidden = !view.road;
  gripSignals();
  gripRoad();
  if (focus) { const again = document.querySelector(`[data-key="${focus}"]`); if (again) again.focus({ preventScroll: true }); }
  if (view.climbing) poll();
}

function showButtons(view) {
  const why = view.has_climb ? "" : "The deck has no STEPS card, which says how to climb.";
  for (const id of ["climb", "certificate"]) byId(id).title = why;
  byId("climb").disabled = view.climbing || !view.has_climb;
  byId("stop").disabled = !view.climbing;
  const can = { undo: view.can_undo, redo: view.can_redo, again: view.can_undo, certificate: view.has_climb };
  for (const [id, may] of Object.entries(can)) byId(id).disabled = view.climbing || !may;
}

function showTook(view) {
  const list = byId("took");
  byId("climbing").hidden = view.took.length === 0 && !view.climbing;
  if (list.children.length > view.took.length) list.replaceChildren();
  for (const text of view.took.slice(list.children.length)) {
    const item = document.createElement("li");
    item.textContent = text;
    list.append(item);
  }
  list.scrollTop = list.scrollHeight;
}

function cell(row, text, kind) {
  const made = row.insertCell();
  made.textContent = text;
  if (kind) made.className = kind;
  return made;
}

function differing(row, text) {
  return cell(row, text, "number " + (text.startsWith("+") ? "more" : text ? "less" : ""));
}

function emptied(id) {
  const body = byId(id).tBodies[0];
  body.replaceChildren();
  return body;
}

function showTables(view) {
  const totals = emptied("totals"), links = emptied("links"), times = emptied("times");
  for (const total of view.totals) {
    const row = totals.insertRow();
    cell(row, total.name);
    cell(row, total.shown, "number").dataset.raw = total.raw;
    differing(row, total.change);
  }
  for (const link of view.links) {
    const row = links.insertRow();
    cell(row, link.number);
    cell(row, link.name).dir = "auto";
    for (const text of [link.flow, link.saturation, link.delay]) cell(row, text, "number");
    differing(row, link.delay_change);
    cell(row, link.queue, "number");
    differing(row, link.queue_change);
  }
  for (const node of view.nodes) {
    const row = times.insertRow();
    cell(row, `${node.number} ${node.name}`).dir = "auto";
    row.insertCell().append(field(`offset of junction ${node.number}`, node.number, 0, node.offset));
    row.insertCell().append(...node.stages.map(stage =>
      field(`stage ${stage.number} of junction ${node.number} ${stage.name}`, node.number, stage.number, stage.at)));
  }
}

// A field for seconds: what is typed goes at Enter, or where the field is left.
function field(name, node, stage, seconds) {
  const label = document.createElement("label"), input = document.createElement("input");
  let sent = shown(seconds);
  const send = () => {
    if (input.value === sent) return;
    sent = input.value;
    change("/edit", { node, stage, seconds: input.value }, below(input));
  };
  label.append(stage ? `${stage} ` : "", input);
  input.value = sent;
  input.inputMode = "decimal";
  input.setAttribute("aria-label", `${name}, seconds`);
  input.dataset.key = `field-${node}-${stage}`;
  input.addEventListener("keydown", event => {
    if (event.key === "Enter") send();
    if (event.key === "Escape") { input.value = sent; tell("", false); note("", null); }
  });
  input.addEventListener("change", send);
  return label;
}

const shown = seconds => String(Math.round(seconds * 1000) / 1000);

function picture(id, text) {
  const place = byId(id);
  if (!text) { place.replaceChildren(); return; }
  const parsed = new DOMParser().parseFromString(text, "image/svg+xml").documentElement;
  place.replaceChildren(document.importNode(parsed, true));
}

// Climbing, and the other buttons.

async function poll() {
  if (polling) return;
  polling = true;
  try {
    while (state.climbing) {
      await new Promise(done => setTimeout(done, POLL));
      const { body } = await ask("/took");
      if (!body.climbing) break;
      showTook(body);
      const count = body.took.length;
      tell(`${count} ${count === 1 ? "step" : "steps"}${count ? `: ${body.took[count - 1]}` : ""}`, false);
    }
    const { body } = await ask("/state");
    polling = false;
    show({ ...body, took: body.took.length || body.climbing ? body.took : taken() });
    tell(body.message, false);
  } catch (error) { tell(error.message, true); }
  polling = false;
}

const taken = () => [...byId("took").children].map(item => item.textContent);

async function stop() {
  byId("stop").disabled = true;
  try {
    const { body } = await ask("/stop", { version: state.version });
    show(body);
    tell(body.message, false);
  } catch (error) { tell(error.message, true); }
}

async function download() {
  let text = null;
  try {
    const answer = await fetch("/deck", { headers: { "X-Board": secret } });
    if (answer.status === 200) text = await answer.text();
  } catch (error) { /* told below */ }
  if (text === null) { tell("The board doesn't answer: it may have ended.", true); return; }
  const link = document.createElement("a");
  link.href = URL.createObjectURL(new Blob([text], { type: "text/plain" }));
  link.download = "plan.deck";
  link.click();
  setTimeout(() => URL.revokeObjectURL(link.href), 1000);
}

async function certificate() {
  tell("The certificate is being worked out.", false);
  try {
    const { body } = await ask("/certificate", { version: state.version });
    if (body.refused) { show(body); tell(body.message, true); return; }
    byId("sensitivity-part").hidden = false;
    picture("sensitivity", body.sensitivity);
    byId("sensitivity-part").scrollIntoView();
    tell("", false);
  } catch (error) { tell(error.message, true); }
  showButtons(state);
}

// The secret: out of the address, or by a ticket, into this tab alone.
async function secretOf(hash) {
  if (!hash.startsWith("ticket=")) return hash || sessionStorage.getItem("board");
  const answer = await fetch("/ticket", { method: "POST", headers: { "Content-Type": "application/json" },
    body: JSON.stringify({ ticket: hash.slice(7) }) });
  const body = await answer.json();
  if (!body.secret) throw new Error(body.message);
  return body.secret;
}

async function enter() {
  const hash = location.hash.slice(1);
  history.replaceState(null, "", location.pathname);
  try {
    secret = await secretOf(hash);
    if (!secret) throw new Error("Open the board by the whole address that the terminal shows.");
    sessionStorage.setItem("board", secret);
    const { body } = await ask("/state");
    show(body);
    tell(body.message || "", false);
  } catch (error) { tell(error.message, true); return; }
  byId("climb").addEventListener("click", () => { byId("took").replaceChildren(); change("/climb"); });
  for (const name of ["undo", "redo", "again"]) byId(name).addEventListener("click", () => change(`/${name}`));
  byId("stop").addEventListener("click", stop);
  byId("certificate").addEventListener("click", certificate);
  byId("download").addEventListener("click", download);
}

enter();
