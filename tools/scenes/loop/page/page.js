// The page: asks the server, and shows what it answers. Whatever comes from a model is put in as text, never as markup.
"use strict";

const byId = (id) => document.getElementById(id);
const SVG = "http://www.w3.org/2000/svg";

let tab = null;      // the name of this tab's session
let state = null;    // what the server told last
let drawn = null;    // the picture that is shown
let busy = false;
let asking = 0;      // how many requests for offers are under way
const view = { number: null, hidden: new Set(), only: "", atom: 0, withoutLonely: false, zoom: 0 };

// Requests

async function post(what, asked) {
  const answer = await fetch(what, { method: "POST", headers: { "Content-Type": "application/json" }, body: JSON.stringify(asked) });
  const told = await answer.json();
  if (!answer.ok) throw new Error(told.error);
  return told;
}

// Does something while the buttons wait, and tells what went wrong.
async function working(act) {
  if (busy) return;
  busy = true;
  showBusy();
  const slow = setTimeout(() => { byId("working").hidden = false; }, 250);
  try {
    await act();
  } catch (wrong) {
    tell("~ " + (wrong instanceof TypeError ? "the server doesn't answer: is scenes still running?" : wrong.message));
  } finally {
    clearTimeout(slow);
    busy = false;
    byId("working").hidden = true;
    showBusy();
  }
}

async function begin() {
  const known = sessionStorage.getItem("tab:" + location.pathname);
  if (known) {
    try {
      const told = await post("state", { tab: known });
      tab = known;
      await take(told, "");
      return;
    } catch (gone) { /* the server has forgotten it: a new one is opened */ }
  }
  const told = await post("open", { tab: null });
  tab = told.tab;
  sessionStorage.setItem("tab:" + location.pathname, tab);
  await take(told, "");
}

// Says a word of the shell.
async function say(word, argument = "") {
  // Whoever goes on doesn't wait for offers.
  if (asking) await post("stop", { tab });
  const before = state.log;
  const told = await post("do", { tab, version: state.version, word, argument });
  await take(told, told.outdated ? null : told.log.slice(before.length));
}

// Draws anew after a change of the view; changes that come while it draws are drawn together behind it.
let drawing = false;
let again = false;
async function redraw() {
  again = true;
  if (drawing) return;
  drawing = true;
  try {
    while (again) {
      again = false;
      await draw();
    }
  } catch (wrong) {
    tell("~ " + wrong.message);
  } finally {
    drawing = false;
  }
}

// Takes a state over, with the lines that are new in the log.
async function take(told, fresh) {
  state = told;
  const last = state.scenarios.length - 1;
  view.number = state.current ?? (last >= 0 ? last : null);
  showHead();
  showNews(fresh);
  showLog();
  await draw();
  showOffers();
}

// What the shell said beyond scenarios: refusals, repeats, and what was left out.
function showNews(fresh) {
  if (fresh === null) {
    tell("~ this session went on in another tab: this is where it stands");
    return;
  }
  const lines = (fresh || "").split("\n").filter((line) => line);
  const own = lines.filter((line) => line.startsWith("~ ") && !/^~ (number \d+$|augment )/.test(line));
  const refused = lines.filter((line) => /^(refused|memory|end) ?/.test(line));
  const told = lines.findIndex((line) => line.startsWith("fault "));
  const all = state.log.split("\n");
  const fault = told >= 0 ? lines.slice(told) : state.usable ? null : all.slice(all.findLastIndex((line) => line.startsWith("fault ")));
  showFault(fault);
  const proof = lines.some((line) => line.startsWith("proof "));
  tell(fault || proof ? "" : [...refused, ...own].join("\n"));
}

function tell(text) {
  byId("notice").textContent = text;
  byId("notice").hidden = !text;
}

// A fault: the program's line, and the places with their carets.
function showFault(lines) {
  const box = byId("fault");
  box.replaceChildren();
  box.hidden = !lines;
  if (lines && !state.usable) choosePanel("modelPanel");
  for (const line of lines || []) {
    if (!line || line.startsWith("~> ")) continue;
    const row = document.createElement("span");
    row.className = line.startsWith("fault ") ? "told" : /^~\s+\^$/.test(line) ? "caret" : /^~ {3}\S/.test(line) ? "cure" : "";
    row.textContent = line + "\n";
    box.append(row);
  }
}

// What stands around the picture

function showHead() {
  byId("file").textContent = state.file.split("/").pop();
  byId("file").title = state.file;
  document.title = state.file.split("/").pop() + " - scenes";
  const commands = byId("command");
  commands.replaceChildren(...state.commands.map((command) => {
    const option = new Option(`${command.number}: ${cut(command.text, 80)} (line ${command.line})`, command.number);
    option.selected = command.number === state.command;
    return option;
  }));
  byId("facts").textContent = state.facts ? `~ the facts alone, as "${state.facts[0]}": ${state.facts[1]}` : "";
  byId("verdict").textContent = state.verdict;
  byId("verdict").className = /^end/.test(state.verdict) ? "ended" : /^(refused|memory)/.test(state.verdict) ? "refused" : "";
  byId("floor").textContent = state.floor ? `~ floor ${state.floor}` : "";
  byId("script").textContent = state.script;
  showScenarios();
  showProof();
  showModel();
}

function showScenarios() {
  byId("scenarios").replaceChildren(...state.scenarios.map((scenario, place) => {
    const button = document.createElement("button");
    button.textContent = place + 1;
    button.title = scenario.head + (place === state.current ? ", the current one" : "");
    button.classList.toggle("viewed", place === view.number);
    button.classList.toggle("current", place === state.current);
    button.classList.toggle("again", scenario.alike !== null);
    button.onclick = () => working(async () => { view.number = place; showScenarios(); await draw(); showOffers(); });
    return button;
  }));
  const now = view.number === null ? null : state.scenarios[view.number];
  byId("alike").textContent = now && now.alike !== null ? `~ the same as number ${now.alike + 1} up to the names of the atoms` : "";
}

function showProof() {
  const end = state.ended;
  const lines = state.proof || [end ? "~ the program printed an end at this floor" : "~ no end was printed at this floor"];
  byId("proof").replaceChildren(...lines.map((line) => {
    const row = document.createElement("div");
    row.textContent = line;
    row.className = line.startsWith("~") ? "own" : "";
    return row;
  }));
  byId("prove").hidden = !end || state.proof !== null;
}

function showModel() {
  const taken = state.commands.find((command) => command.number === state.command);
  const first = state.firstLine;
  byId("model").replaceChildren(...state.text.replace(/\n$/, "").split("\n").map((line, place) => {
    const row = document.createElement("span");
    row.className = "row" + (taken && taken.line === place + first ? " taken" : "");
    row.dataset.line = place + first;
    row.textContent = line + "\n";
    return row;
  }));
}

function showLog() {
  byId("log").replaceChildren(...state.log.replace(/\n$/, "").split("\n").map((line) => {
    const row = document.createElement("span");
    row.className = "row" + (line.startsWith("~") ? " own" : "");
    row.textContent = line + "\n";
    return row;
  }));
}

function showBusy() {
  for (const button of document.querySelectorAll("nav button, #offers button, #prove, #scenarios button")) {
    if (button.id !== "stop") button.disabled = busy;
  }
  byId("command").disabled = busy;
  if (busy || !state) return;
  // Behind an end the program says the same end again.
  for (const id of ["next", "all"]) byId(id).disabled = !state.usable || state.ended;
  byId("back").disabled = !state.usable || state.floor === 0;
  byId("undo").disabled = state.steps.length === 0;
}

async function showOffers() {
  const box = byId("offers");
  box.replaceChildren();
  if (view.number === null || !state.usable) return;
  if (view.number !== state.current) {
    box.append(note(state.current === null ? "~ nothing was shown at this floor yet" : `~ offers are for the current scenario, number ${state.current + 1}`));
    return;
  }
  box.append(note("~ asking what could be added .."));
  const version = state.version;
  let told;
  asking += 1;
  try {
    told = await post("offers", { tab, version });
  } catch (wrong) {
    box.replaceChildren(note("~ " + wrong.message));
    return;
  } finally {
    asking -= 1;
  }
  if (told.version !== state.version || version !== state.version || view.number !== state.current) return;
  state.log = told.log;
  showLog();
  if (told.said === null) box.replaceChildren(note("~ there was no answer: see the log"));
  else fillOffers(box, told.said, told.offers);
}

function fillOffers(box, said, offers) {
  const names = Object.keys(offers);
  const count = names.reduce((sum, name) => sum + offers[name].length, 0);
  box.replaceChildren(element("div", "programs", said), note(count ? "~ press one to add it: a floor with it, and its first scenario" : ""));
  for (const name of names) {
    const group = document.createElement("details");
    group.open = count <= 40 || offers[name].length <= 8;
    const head = document.createElement("summary");
    head.append(name + " ", element("span", "count", `(${offers[name].length})`));
    const rows = element("div", "rows", "");
    for (const row of offers[name]) {
      const button = element("button", "", row.split("->").map(short).join(" \u2192 "));
      button.title = `augment ${name} ${row}`;
      button.onclick = () => working(() => say("add", `${name} ${row}`));
      rows.append(button);
    }
    group.append(head, rows);
    box.append(group);
  }
  showBusy();
}

// The name of an atom in the picture; an atom that isn't in it keeps the program's.
function short(atom) {
  return (drawn && drawn.names[atom]) || atom;
}

// The picture

async function draw() {
  const empty = byId("empty");
  empty.hidden = view.number !== null || !state.usable;
  empty.textContent = "~ nothing was shown yet: Next asks for a scenario";
  for (const id of ["scenariosBox", "relationsBox", "onlyBox", "under"]) byId(id).hidden = view.number === null;
  byId("proofBox").hidden = !state.usable;
  if (view.number === null) {
    drawn = null;
    for (const id of ["picture", "text", "table", "legend", "tables"]) byId(id).replaceChildren();
    return;
  }
  const line = drawn && drawn.lines_of[view.only];
  const atoms = line ? line.atoms : [];
  const only = atoms.length ? { [view.only]: atoms[Math.min(view.atom, atoms.length - 1)] } : {};
  const before = view.atom > 0 ? atoms[view.atom - 1] : null;
  const told = await post("draw", { tab, number: view.number, hidden: [...view.hidden], only, before, withoutLonely: view.withoutLonely });
  const changed = !drawn || !told.lines_of[view.only] || told.lines_of[view.only].atoms.join() !== atoms.join();
  drawn = told;
  if (view.only && changed) {
    // Another scenario has other atoms: look again, at the atom of the same place.
    if (!drawn.lines_of[view.only]) view.only = "";
    view.atom = view.only ? Math.min(view.atom, drawn.lines_of[view.only].atoms.length - 1) : 0;
    if (view.only) { await draw(); return; }
  }
  showText();
  showPicture();
  showTables();
  showRelations();
  showOnly();
  showLegend();
}

// The program's lines, which may be broken between tuples and nowhere else.
function showText() {
  byId("text").replaceChildren(...drawn.lines.map((line, place) => {
    const row = element("span", "row", "");
    const parts = line.split(", ");
    parts.forEach((part, at) => row.append(element("span", "tuple", part + (at < parts.length - 1 ? "," : "")), at < parts.length - 1 ? " " : ""));
    if (place < drawn.lines.length - 1) row.append("\n");
    return row;
  }));
}

function showPicture() {
  const has = Boolean(drawn.svg);
  byId("picture").hidden = !has;
  byId("tables").hidden = has;
  if (!has) {
    byId("picture").replaceChildren();
    return;
  }
  const read = new DOMParser().parseFromString(drawn.svg, "image/svg+xml").documentElement;
  const picture = copied(read);
  if (!picture) throw new Error("the picture can't be read");
  byId("picture").replaceChildren(picture);
  fit(picture);
}

const ELEMENTS = new Set(["svg", "g", "a", "path", "polygon", "polyline", "ellipse", "text", "title"]);
const ATTRIBUTES = ["viewBox", "transform", "d", "points", "fill", "stroke", "stroke-width", "font-family", "font-size", "font-weight", "text-anchor", "x", "y", "cx", "cy", "rx", "ry", "class"];

// A copy of what Graphviz drew, of known elements and attributes alone.
function copied(from) {
  if (from.namespaceURI !== SVG || !ELEMENTS.has(from.localName)) return null;
  const to = document.createElementNS(SVG, from.localName === "a" ? "g" : from.localName);
  for (const name of ATTRIBUTES) {
    if (from.hasAttribute(name)) to.setAttribute(name, from.getAttribute(name));
  }
  const tip = from.localName === "a" && from.getAttributeNS("http://www.w3.org/1999/xlink", "title");
  if (tip) {
    const title = document.createElementNS(SVG, "title");
    title.textContent = tip;
    to.append(title);
  }
  for (const child of from.childNodes) {
    if (child.nodeType === Node.TEXT_NODE && ["text", "title"].includes(from.localName)) to.append(child.textContent);
    const inner = child.nodeType === Node.ELEMENT_NODE && !(child.localName === "title" && ["scenario"].includes(child.textContent)) ? copied(child) : null;
    if (inner) to.append(inner);
  }
  return to;
}

// Sizes: as large as drawn, but no wider and no higher than the room there is; or as chosen.
function fit(picture) {
  const [, , width, height] = picture.getAttribute("viewBox").split(/\s+/).map(Number);
  const room = byId("picture").getBoundingClientRect();
  const natural = 4 / 3;
  const most = Math.min((room.width - 40) / width, (room.height - 40) / height, natural);
  // What would be too small to read is wider than the room, and can be scrolled.
  const scale = Math.max(most, view.zoom === 0 ? 0.6 : 0) * 1.25 ** view.zoom;
  picture.setAttribute("width", width * scale);
  picture.setAttribute("height", height * scale);
}

function zoom(step) {
  view.zoom = step === 0 ? 0 : view.zoom + step;
  const picture = byId("picture").querySelector("svg");
  if (picture) fit(picture);
}

function tableOf(relation) {
  const table = document.createElement("table");
  table.append(element("caption", "", relation.name));
  for (const row of relation.rows) {
    const line = table.insertRow();
    for (const atom of row) {
      const cell = line.insertCell();
      cell.textContent = short(atom);
      cell.title = atom;
    }
  }
  return table;
}

function showTables() {
  const full = drawn.relations.filter((relation) => relation.rows.length);
  const bare = drawn.relations.filter((relation) => !relation.rows.length).map((relation) => relation.name);
  const parts = () => [...full.map(tableOf), note(bare.length ? `~ empty: ${bare.join(", ")}` : "")];
  byId("table").replaceChildren(...parts());
  byId("tables").replaceChildren(...(drawn.svg ? [] : [note(`~ ${drawn.wrong}`), ...parts()]));
}

function showRelations() {
  const drawnOnes = drawn.relations.filter((relation) => relation.line);
  byId("relations").replaceChildren(...drawnOnes.map((relation) => {
    const label = element("label", relation.rows.length ? "" : "none", "");
    const box = document.createElement("input");
    box.type = "checkbox";
    box.checked = !view.hidden.has(relation.name);
    box.disabled = !relation.rows.length;
    box.onchange = () => { view.hidden[box.checked ? "delete" : "add"](relation.name); redraw(); };
    const swatch = element("span", "swatch", "");
    swatch.style.borderTopColor = relation.line;
    const place = drawn.relations.indexOf(relation);
    label.onmouseenter = () => fade(`relation${place}`);
    label.onmouseleave = () => fade("");
    label.append(box, swatch, element("span", "name", relation.name), element("span", "count", relation.rows.length));
    return label;
  }));
  if (!drawnOnes.length) byId("relations").append(note("~ there are no fields"));
}

// Fades all arrows but those of one class.
function fade(kept) {
  for (const arrow of byId("picture").querySelectorAll("g.edge")) arrow.classList.toggle("faded", Boolean(kept) && !arrow.classList.contains(kept));
}

function showOnly() {
  const lines = drawn.lines_of;
  byId("onlyBox").hidden = Object.keys(lines).length === 0;
  byId("only").replaceChildren(new Option("all at once", ""), ...Object.keys(lines).map((name) => new Option(lines[name].along ? `${name}, along ${lines[name].along}` : name, name)));
  byId("only").value = view.only;
  const line = lines[view.only];
  byId("sliderBox").hidden = !line;
  const along = Object.keys(lines).find((name) => lines[name].along);
  const many = !line && along && drawn.arrows > 20;
  byId("hint").textContent = many ? `~ ${drawn.arrows} arrows: ${along}, one at a time, may be easier to read` : "";
  if (!line) return;
  byId("slider").max = line.atoms.length - 1;
  byId("slider").value = view.atom;
  const loose = drawn.loose.filter((name) => name !== line.along);
  byId("atom").textContent = `${short(line.atoms[view.atom])} (${view.atom + 1} of ${line.atoms.length})` + (loose.length ? `, ${[...new Set(loose)].join(", ")}` : "");
}

function showLegend() {
  const tops = drawn.relations.filter((relation) => relation.fill && drawn.kinds.includes(relation.name));
  const parts = tops.map((relation) => {
    const part = element("span", "", "");
    const box = element("span", "box", "");
    box.style.backgroundColor = relation.fill;
    part.append(box, relation.name);
    return part;
  });
  const than = view.only && view.atom > 0 ? "one before" : !view.only && drawn.base !== null ? `in number ${drawn.base + 1}` : "";
  if (than && drawn.svg) {
    const bold = element("span", "", "");
    bold.append(element("b", "", "bold"), `: not there ${than}`);
    parts.push(bold);
  }
  byId("legend").replaceChildren(...parts);
}

// Small helps

function element(name, kind, text) {
  const made = document.createElement(name);
  if (kind) made.className = kind;
  made.textContent = text;
  return made;
}

function note(text) {
  return element("div", "own", text);
}

function cut(text, most) {
  return text.length > most ? text.slice(0, most - 2) + ".." : text;
}

function choosePanel(name) {
  for (const button of document.querySelectorAll(".tabs button")) {
    const chosen = button.dataset.panel === name;
    button.setAttribute("aria-selected", chosen);
    byId(button.dataset.panel).hidden = !chosen;
  }
}

// What is pressed

function listen() {
  byId("next").onclick = () => working(() => say("next"));
  byId("all").onclick = () => working(() => say("all", "10"));
  byId("back").onclick = () => working(() => say("back"));
  byId("undo").onclick = () => working(() => say("undo"));
  byId("reload").onclick = () => working(() => say("reload"));
  byId("restart").onclick = () => working(() => say("restart"));
  byId("prove").onclick = () => working(() => say("proof"));
  byId("stop").onclick = () => post("stop", { tab });
  byId("command").onchange = (event) => working(() => say("command", event.target.value));
  byId("lonely").onchange = (event) => { view.withoutLonely = event.target.checked; redraw(); };
  byId("only").onchange = (event) => { view.only = event.target.value; view.atom = 0; redraw(); };
  byId("slider").oninput = (event) => { view.atom = Number(event.target.value); redraw(); };
  byId("smaller").onclick = () => zoom(-1);
  byId("larger").onclick = () => zoom(1);
  byId("fit").onclick = () => zoom(0);
  for (const button of document.querySelectorAll(".tabs button")) button.onclick = () => choosePanel(button.dataset.panel);
  document.onkeydown = (event) => {
    if (event.ctrlKey || event.metaKey || event.altKey || event.target.closest("input, select, textarea")) return;
    const id = { n: "next", b: "back", u: "undo" }[event.key];
    if (id && !byId(id).disabled) byId(id).click();
  };
  window.onresize = () => zoom(0);
}

listen();
choosePanel("offersPanel");
working(begin);
