// Puts the page together: layers in, the worker's answers out.
import { takeExamples, takeFiles } from "./chooser.js";
import { $ } from "./dom.js";
import { CERTIFIED, TYPES, UNITS } from "./format.js";
import { showBytes, showFields } from "./hexdump.js";
import { LayerMap } from "./map.js";
import { many, number } from "./numbers.js";
import { coloursOf, paintOutside } from "./paint.js";
import { widen } from "./pen.js";
import * as results from "./results.js";
import { DONE, NONE, WORKING, WRONG } from "./states.js";
import { paintStrip } from "./strip.js";
import { BlobTable } from "./table.js";
import { FAULTS, STAGES, WINDOW_ERRORS } from "./texts.js";
import { showFault, showOthers, showReasons, showVerdict } from "./verdict.js";
import { View } from "./view.js";
import { inAddress, ofAddress, textOf, understood, windowIn } from "./window.js";

const STRIP_LINES = 4, STEP = 1.5;
// On a narrow screen a line has fewer bytes, and explanations are folded.
const NARROW = 640, WIDE_LINE = 16, NARROW_LINE = 8;
// How long the map keeps the colours of the last window before it dims them, and how long the address keeps that window, in milliseconds:
// a browser doesn't let an address change for each step of a drag.
const KEPT = 150;
const NO_PLACE = "Point at the map, or tap it, for coordinates.";
// `wish` is the window that the address asked for, until its file is opened.
const state = { run: 0, name: "", strip: null, refused: null, told: null, claims: null, wish: ofAddress() };
// The last window that was asked for, and of which windows the parts of the page are, by their numbers.
const windows = { asked: 0, text: "", scanning: false, next: false, scanned: 0, coloured: 0, spread: 0, rows: 0 };
// What tests wait for: that the page has answered all that it was asked.
const settle = (what, where) => (document.documentElement.dataset[what] = where);

// Workers of the page's own text: from a disk a page may load no other file.
const started = async (id) => new Worker(URL.createObjectURL(new Blob([await unpacked(id)], { type: "text/javascript" })));
const worker = await started("worker"), painter = await started("painter");
const ask = (message, moved = []) => worker.postMessage({ run: state.run, ...message }, moved);
const map = new LayerMap($("map"), {
  window(ends, pixel) {
    $("text").value = textOf(ends, pixel, $("text").value);
    scan();
  },
  pick: (blob) => state.refused || pick(blob, false),
  at: (text) => ($("at").textContent = text || NO_PLACE),
}, painter);
const buttons = Object.fromEntries(["first", "back", "next", "last", "pages"].map((id) => [id, $(id)]));
const table = new BlobTable($("list"), $("listof"), buttons, (wish) => ask({ ask: "rows", ...wish }), (blob) => pick(blob, true));

function open(file) {
  state.run++;
  Object.assign(state, { name: file.name, strip: null, refused: null, told: null, claims: null });
  Object.assign(windows, { asked: windows.asked + 1, text: "", scanning: false, next: false });
  clearTimeout(windows.writes);
  settle("run", state.run);
  settle("state", WORKING);
  settle("scan", NONE);
  $("refused").hidden = $("certified").hidden = true;
  $("verdict").className = "";
  $("verdict").textContent = `Checking ${file.name}.`;
  $("wrong").textContent = "";
  $("about").open = false;
  $("at").textContent = NO_PLACE;
  $("pen").setAttribute("aria-pressed", "false");
  map.mode({ drawing: false });
  table.clear();
  results.clearResults();
  freshen();
  ask({ ask: "open", file });
}

// One scan at a time: while one runs the last wish alone is kept.
function scan() {
  const { text, wrong } = understood($("text").value);
  if (wrong) return refuse(wrong);
  if ($("text").value !== text) $("text").value = text;
  settle("scan", WORKING);
  Object.assign(windows, { asked: windows.asked + 1, text });
  freshen();
  if (windows.scanning) windows.next = true;
  else askScan();
}

function askScan() {
  Object.assign(windows, { scanning: true, next: false });
  ask({ ask: "scan", text: windows.text, number: windows.asked });
}

function scanned() {
  windows.scanning = false;
  if (windows.next) askScan();
}

// What is typed is no window: what is shown stays, and is of the last one.
function refuse(why) {
  $("wrong").textContent = `${why} The results below are of the last window.`;
  $("text").setAttribute("aria-invalid", "true");
  if (windows.spread === windows.asked) settle("scan", WRONG);
}

// Dims and marks all that is of another window than the one that was asked for last, and nothing else.
function freshen() {
  for (const at of document.querySelectorAll("[data-of]")) {
    const isOld = windows[at.dataset.of] !== windows.asked;
    at.classList.toggle("stale", isOld);
    at.setAttribute("aria-busy", String(isOld));
  }
  clearTimeout(windows.dims);
  if (windows.text && windows.spread !== windows.asked) return void (windows.dims = setTimeout(dim, KEPT));
  $("waiting").textContent = "";
  map.stale(false);
}

// A scan that takes a while is told of.
function dim() {
  const last = $("printed").dataset.window;
  $("waiting").textContent = `Scanning.${last ? " Dimmed: the last window." : ""}`;
  if (windows.coloured !== windows.asked) map.stale(true);
}

// Picks a blob, by a click on its shape or in a table. From a table the map comes into view.
function pick(blob, toMap) {
  settle("pick", WORKING);
  if (blob === null) unpick();
  else ask({ ask: "pick", blob, order: table.order });
  if (toMap) lookAtMap();
}

function lookAtMap() {
  $("map").focus({ preventScroll: true });
  $("map").scrollIntoView({ block: "center" });
}

function unpick() {
  map.chosen = null;
  map.repaint();
  table.choose(null);
  $("picked").hidden = $("tomap").hidden = true;
  settle("pick", NONE);
}

function progress({ stage, done, of }) {
  $("progress").hidden = false;
  $("stage").textContent = STAGES[stage];
  if (of) $("bar").value = done / of;
  else $("bar").removeAttribute("value");
}

function finished() {
  $("progress").hidden = true;
}

function failed(text) {
  finished();
  showFault(text);
  $("chooser").open = true;
  toVerdict();
  settle("state", DONE);
}

// The verdict comes into view: to the top of a narrow screen, and elsewhere if a part of it is outside.
function toVerdict() {
  const { top, bottom } = $("verdict").getBoundingClientRect();
  if (innerWidth < NARROW || top < 0 || bottom > innerHeight) $("verdict").scrollIntoView({ block: "start" });
  state.top = scrollY;
}

// The page grows after the verdict, so that there may be room now to bring it to the top. It stays where someone has scrolled meanwhile.
function toVerdictAgain() {
  if (scrollY === state.top) toVerdict();
}

function repaint() {
  map.repaint();
  const colours = coloursOf(document);
  if (state.strip) paintStrip($("strip"), state.strip, colours, STRIP_LINES);
  if (!state.refused) return;
  const { outside } = state.refused;
  if (outside) paintOutside($("escape"), outside, new View($("escape")), colours);
  showBytes($("bytes"), state.refused, innerWidth < NARROW ? NARROW_LINE : WIDE_LINE);
}

const TOLD = {
  ready() {
    settle("ready", "yes");
  },
  progress,
  large({ length }) {
    failed(`Not checked: ${state.name} has ${many(length, "byte")}. This page reads files of up to 268,435,456 bytes (256 MiB).`);
  },
  failed({ what, why }) {
    failed(FAULTS[what] ?? `Not checked: something went wrong (${why}).`);
  },
  verdict(told) {
    state.told = told;
    showVerdict(told, state.name, null);
    // The chooser makes room for the layer.
    $("chooser").open = false;
    document.body.classList.add("opened");
    toVerdict();
  },
  survey(told) {
    results.showSummary(told);
    if (state.told.verdict.answer !== CERTIFIED) return;
    state.claims = told.claims;
    showVerdict(state.told, state.name, told.claims);
  },
  refused(told) {
    $("refused").hidden = false;
    showReasons(told);
    state.refused = told;
    $("outside").hidden = !told.outside;
    repaint();
    showFields($("fields").tBodies[0], told);
    toVerdictAgain();
  },
  others: showOthers,
  picture({ picture, rows, vertices, extent, wrong }) {
    // Of a refused layer the map alone is shown, and an empty file has nothing to show.
    $("certified").hidden = !rows && !wrong?.length;
    $("certified").classList.toggle("refused", !!wrong);
    $("asked").textContent = wrong ? "Where it is on the map" : "Ask for a part of the map";
    if (!wrong) $("tight").textContent = "Looking.";
    results.showSample(picture, rows, vertices);
    map.show(picture, wholeOf(extent, picture, wrong), wrong);
    unpick();
    $("text").value = "";
    if (!wrong) firstWindow(rows);
    toVerdictAgain();
  },
  tight(told) {
    results.showTight(told, (blob) => pick(blob, true));
  },
  done() {
    finished();
    toVerdictAgain();
    settle("state", DONE);
  },
  window({ answer }) {
    if (!windows.next) windows.asked = windows.scanned;
    refuse(WINDOW_ERRORS[answer]);
    freshen();
    scanned();
  },
  scanned(told) {
    $("wrong").textContent = "";
    $("text").removeAttribute("aria-invalid");
    results.showScan(told, state.claims);
    windows.scanned = told.number;
    freshen();
    if (!windows.next && told.text === $("text").value.trim()) map.setWindow(told.ends, told.text);
    clearTimeout(windows.writes);
    windows.writes = setTimeout(() => inAddress(told.text, state.name), KEPT);
    scanned();
  },
  coloured({ number, state: colours }) {
    if (number !== windows.asked) return;
    windows.coloured = number;
    map.recolour(colours, null);
  },
  spread({ number, ...told }) {
    if (number !== windows.scanned) return;
    results.showSums(told);
    results.showLeft(told.left);
    windows.spread = windows.coloured = number;
    freshen();
    map.recolour(told.state, told.more);
    state.strip = told.strip;
    repaint();
    table.refresh();
    if (document.documentElement.dataset.state === DONE) finished();
    if (number === windows.asked) settle("scan", DONE);
  },
  rows: (told) => {
    table.show(told);
    windows.rows = told.number;
    freshen();
    settle("pick", DONE);
  },
  picked(told) {
    const { blob, kind, count, bytes, offset, position } = told;
    $("pickedtext").textContent = `Blob ${number(blob)}: ${TYPES[kind]}, ${many(count, "vertex")}, ${many(bytes, "byte")} from byte ${number(offset)} on.`;
    $("picked").hidden = $("tomap").hidden = false;
    $("before").hidden = !map.before;
    showFields($("pickedbytes").tBodies[0], told);
    map.choose(told);
    table.choose(blob, position);
  },
};

worker.onmessage = ({ data }) => {
  if (data.run === state.run || data.tell === "ready") TOLD[data.tell](data);
};
worker.onerror = (event) => failed(`Not checked: ${event.message}`);

// Types the window that the address asks for, where it is of this file.
function takeWish() {
  const { text, file } = state.wish;
  if (!text || (file !== undefined && file !== state.name)) return false;
  $("text").value = text;
  $("asks").textContent = "";
  state.wish = {};
  return true;
}

// What the map shows at first: as far as the vertices reach, or the boxes where there are none, and the wrong blob.
function wholeOf(extent, { boxes }, wrong) {
  const whole = [Infinity, Infinity, -Infinity, -Infinity];
  if (extent[0]) widen(whole, [extent[0][0], extent[1][0], extent[0][1], extent[1][1]].map((end) => Number(end) / UNITS));
  else for (let i = 0; i < boxes.length; i += 4) if (boxes[i] <= boxes[i + 2]) widen(whole, boxes.subarray(i, i + 4));
  for (let i = 0; i < (wrong?.length ?? 0); i += 2) widen(whole, [wrong[i], wrong[i + 1], wrong[i], wrong[i + 1]]);
  return whole[0] <= whole[2] ? whole : [0, 0, 1, 1];
}

// The window of the address, where it is of this file, or one round the vertex that is nearest to the middle, so that it has a hit. A
// layer that is a line or a point has no size: then the window is as large as the view asks for.
async function firstWindow(rows) {
  const { run } = state;
  settle("scan", WORKING);
  if (rows && takeWish()) return scan();
  const part = map.whole, isFlat = part[0] === part[2] || part[1] === part[3], [x0, y0, x1, y1] = isFlat ? map.view.seen : part;
  const vertex = await map.vertexNear([(x0 + x1) / 2, (y0 + y1) / 2]);
  if (run === state.run) map.drag(windowIn([x0, y0, x1, y1], vertex ?? undefined));
}

function colours(dark) {
  document.documentElement.style.colorScheme = dark ? "dark" : "light";
  $("colours").setAttribute("aria-pressed", String(dark));
  repaint();
}

// A button that is pressed or not.
function toggle(id, told) {
  $(id).onclick = () => {
    const is = $(id).getAttribute("aria-pressed") !== "true";
    $(id).setAttribute("aria-pressed", String(is));
    told(is);
  };
}

function wireMap() {
  $("in").onclick = () => map.zoom(STEP);
  $("out").onclick = () => map.zoom(1 / STEP);
  $("fit").onclick = () => map.fit();
  $("here").onclick = () => map.drag(windowIn(map.view.seen));
  toggle("pen", (drawing) => map.mode({ drawing }));
  toggle("finger", (moving) => map.mode({ moving }));
  $("boxes").onchange = () => {
    map.boxes = $("boxes").checked;
    map.repaint();
  };
  $("torow").onclick = () => {
    table.marked?.scrollIntoView({ block: "center" });
    table.marked?.querySelector("button").focus({ preventScroll: true });
  };
  $("tomap").onclick = lookAtMap;
  $("closer").onclick = () => {
    map.closer();
    $("before").hidden = !map.before;
  };
  $("before").onclick = () => {
    map.back();
    $("before").hidden = true;
    $("closer").focus();
  };
  // The button goes, so the focus has to go somewhere.
  $("unpick").onclick = () => {
    pick(null, false);
    $("map").focus({ preventScroll: true });
  };
}

function wire() {
  const dark = matchMedia("(prefers-color-scheme: dark)");
  $("window").addEventListener("submit", (event) => {
    event.preventDefault();
    scan();
  });
  wireMap();
  $("at").textContent = NO_PLACE;
  $("about").open = innerWidth >= NARROW;
  const { text, file } = state.wish;
  if (text && file) $("asks").textContent = `The address asks for ${text} of ${file}.`;
  addEventListener("hashchange", () => {
    state.wish = ofAddress();
    if (state.claims && takeWish()) scan();
  });
  document.addEventListener("keydown", (event) => {
    if (event.key === "Escape" && map.chosen) pick(null, false);
  });
  $("colours").setAttribute("aria-pressed", String(dark.matches));
  $("colours").onclick = () => colours($("colours").getAttribute("aria-pressed") !== "true");
  dark.addEventListener("change", () => colours(dark.matches));
  new ResizeObserver(repaint).observe(document.body);
  takeFiles(open);
  takeExamples(open);
}

wire();
unpacked("module").then((module) => ask({ ask: "load", module }, [module]), (error) => failed(`Not checked: ${error}`));
