// What the tests of the page call in it.
window.$ = (id) => document.getElementById(id);
window.pause = () => new Promise((resume) => setTimeout(resume, 4));

window.isSettled = () => {
  const { state, scan } = document.documentElement.dataset;
  return state === "done" && ["none", "done", "wrong"].includes(scan) && $("map").dataset.painted !== "no";
};

// Workers that are slow: messages with these names are kept back until they are let go. A worker is known once it is asked something.
const known = new WeakSet(), kept = [], post = Worker.prototype.postMessage;
let slow = [];
window.told = [];
Worker.prototype.postMessage = function (...words) {
  if (!known.has(this)) {
    const take = this.onmessage;
    known.add(this);
    this.onmessage = (event) => {
      const { tell, stage, run } = event.data;
      told.push({ tell, stage, run });
      if (slow.includes(tell)) kept.push(() => take.call(this, event));
      else take.call(this, event);
    };
  }
  return post.apply(this, words);
};
window.holdBack = (...names) => void (slow = names);
window.letGo = () => {
  slow = [];
  for (const take of kept.splice(0)) take();
};
window.letOneGo = () => kept.shift()();
window.isHeld = () => kept.length > 0;
window.framesLater = () => new Promise((resume) => requestAnimationFrame(() => requestAnimationFrame(() => resume(null))));

// Drops a file, given in base64, and waits for the answer.
window.dropped = async (name, text) => {
  const bytes = Uint8Array.from(atob(text), (letter) => letter.charCodeAt(0)), moved = new DataTransfer();
  moved.items.add(new File([bytes], name));
  document.dispatchEvent(new DragEvent("drop", { dataTransfer: moved, cancelable: true }));
  while (!isSettled()) await pause();
};
// Drops pairs of files, the second one a little later after the first one each time.
window.droppedSoon = async (first, second, pairs) => {
  for (let i = 0; i < pairs; i++) {
    dropping("first.twkb", first);
    for (const until = performance.now() + i / 8; performance.now() < until; );
    await dropped("second.twkb", second);
  }
};
// Drops a file, and doesn't wait.
window.dropping = (name, text) => void dropped(name, text);

// What is said of the layer: the program's line, and of a refused one the byte, its field and the words.
window.verdict = () => {
  const line = $("line")?.querySelector("code").textContent ?? $("verdict").textContent;
  const tight = $("certified").hidden || $("certified").matches(".refused") ? null : $("tight").textContent;
  if ($("refused").hidden) return { line, tight };
  const words = ["meaning", "detail", "harm", "repair"].map((id) => $(id).textContent);
  return { line, tight, byte: $("byte").textContent, title: $("byte").title, field: $("fields").querySelector("tr.at td")?.textContent, words };
};

// Types a window and scans for it.
window.typed = (text) => {
  $("text").value = text;
  $("window").requestSubmit();
};
window.scanned = async (text) => {
  typed(text);
  while (!isSettled()) await pause();
  return { printed: $("printed").textContent, wrong: $("wrong").textContent, sums: rowsOf("sums") };
};

// All pages of the table, as the program prints a list. The page says collection where the program has the format's longer name.
window.listed = async () => {
  const lines = [], begins = (number) => $("pages").textContent.startsWith(`${number.toLocaleString("en")} to`);
  $("first").click();
  while (!begins(1) && $("pages").textContent !== "no blobs") await pause();
  for (;;) {
    const rows = [...$("list").tBodies[0].rows].map((row) => [...row.cells].map((cell) => cell.textContent.replaceAll(",", "")));
    for (const [blob, offset, bytes, type, precision, vertices, size, box] of rows) {
      const named = type.replace(/^collection$/, "geometrycollection");
      lines.push(`blob=${blob} offset=${offset} bytes=${bytes} type=${named} precision=${precision} vertices=${vertices} size=${size} box=${box}`);
    }
    if ($("next").ariaDisabled === "true") return lines;
    $("next").click();
    while (!begins(lines.length + 1)) await pause();
  }
};

// Counts how often a text is written.
window.countWrites = (at) => {
  at.dataset.writes = 0;
  new MutationObserver(() => at.dataset.writes++).observe(at, { childList: true, characterData: true, subtree: true });
};

// Counts turns of the wheel over an element, and says of the last one whether the page kept it from scrolling.
window.countWheels = (at) => {
  at.dataset.wheels = 0;
  addEventListener("wheel", (event) => {
    at.dataset.wheels++;
    window.lastWheel = event.defaultPrevented;
  });
};

// Where the map is, and the window on it.
window.frame = () => {
  const { x, y, width, height } = $("map").getBoundingClientRect();
  return { x, y, width, height, ...JSON.parse($("map").dataset.frame) };
};

// The buttons of the examples, and the row that is marked.
window.examples = () => [...document.querySelectorAll("main [role=group] button")];
window.marked = () => $("list").querySelector("tr[aria-current]");

// Whether an element is in view as a whole.
window.isInView = (at) => {
  const { top, bottom, height } = at?.getBoundingClientRect() ?? { height: 0 };
  return height > 0 && top >= -1 && bottom <= innerHeight + 1;
};

// How far an element's middle is from the middle of another one, from left to right; NaN where it isn't there.
window.offMiddle = (at, of) => {
  const [one, other] = [at, of].map((box) => box?.getBoundingClientRect());
  return one && other ? (one.left + one.right - other.left - other.right) / 2 : NaN;
};

// How many lines the leads have together.
window.leadLines = () => {
  const lines = [...document.querySelectorAll(".lead")].map((at) => at.clientHeight / parseFloat(getComputedStyle(at).lineHeight));
  return Math.round(lines.reduce((one, other) => one + other, 0));
};

// Commands that go on in another line.
window.brokenCodes = () =>
  [...document.querySelectorAll("code.short")].filter((at) => at.getClientRects().length > 1).map((at) => at.textContent);

// How many lines the longest head of a row has in a table.
window.headLines = (id) => {
  const lines = [...$(id).querySelectorAll("tbody th")].map((at) => at.clientHeight / parseFloat(getComputedStyle(at).lineHeight));
  return Math.max(...lines);
};

// The texts of a table's rows, cell by cell.
window.rowsOf = (id) => [...($(id).tBodies[0]?.rows ?? [])].map((row) => [...row.cells].map((cell) => cell.textContent));

// Drops files at once, which are given by their names.
window.droppedAtOnce = (...names) => {
  const moved = new DataTransfer();
  for (const name of names) moved.items.add(new File(["\x01\0\x02\x04"], name));
  document.dispatchEvent(new DragEvent("drop", { dataTransfer: moved, cancelable: true }));
};

const pen = new OffscreenCanvas(1, 1).getContext("2d", { willReadFrequently: true });
// What is seen of a colour over another one.
const seen = (under, colour) => {
  for (const one of [`rgb(${under})`, colour]) {
    pen.fillStyle = one;
    pen.fillRect(0, 0, 1, 1);
  }
  return [...pen.getImageData(0, 0, 1, 1).data].slice(0, 3);
};
const part = (byte) => (byte / 255 <= 0.03928 ? byte / 255 / 12.92 : ((byte / 255 + 0.055) / 1.055) ** 2.4);
const light = ([red, green, blue]) => 0.2126 * part(red) + 0.7152 * part(green) + 0.0722 * part(blue);
const ground = (at) => seen(at.parentElement ? ground(at.parentElement) : [255, 255, 255], getComputedStyle(at).backgroundColor);
const contrast = (one, other) => {
  const both = [light(one), light(other)];
  return (Math.max(...both) + 0.05) / (Math.min(...both) + 0.05);
};

// Texts whose contrast with their ground is below what the accessibility guidelines ask for.
window.faint = () => {
  const hasText = (at) => [...at.childNodes].some((node) => node.nodeType === Node.TEXT_NODE && node.data.trim());
  const all = [...document.querySelectorAll("body *:not(script, [aria-disabled=true])")].filter((at) => at.checkVisibility() && hasText(at));
  const isFaint = (at) => contrast(ground(at), seen(ground(at), getComputedStyle(at).color)) < 4.5;
  return all.filter(isFaint).map((at) => at.outerHTML.slice(0, 80));
};

// The colours of an element that are seen beside its ground: its own, its border's and its pattern's.
const coloursOf = (at) => {
  const { backgroundColor, backgroundImage, borderTopWidth, borderTopColor } = getComputedStyle(at);
  const border = parseFloat(borderTopWidth) ? [borderTopColor] : [];
  const all = [backgroundColor, ...border, ...(backgroundImage.match(/rgba?\([^)]*\)|color\([^)]*\)/g) ?? [])];
  return all.filter((colour) => !/^rgba\(.*, 0\)$/.test(colour));
};

// Marks, frames and borders with less contrast than 3 to what they are on. That no mark is visible is found too.
window.faintMarks = () => {
  const marks = [...document.querySelectorAll(".legend i, .mark, td.hit, td.read, td.hopped")].filter((at) => at.checkVisibility());
  const framed = [...document.querySelectorAll("button, .button, input:not([type]), #drop, #verdict")].filter((at) => at.checkVisibility());
  const edge = (at) => getComputedStyle(at).borderLeftColor;
  const faint = (at, colours) => {
    const under = ground(at.parentElement);
    return colours.some((one) => contrast(under, seen(under, one)) < 3);
  };
  const found = [...marks.filter((at) => faint(at, coloursOf(at))), ...framed.filter((at) => faint(at, [edge(at)]))];
  return [...(marks.length ? [] : ["no marks"]), ...found.map((at) => at.outerHTML.slice(0, 60))];
};

// Colours that whole pixels of a canvas have, but for its ground, with less contrast than 3 to it; and how many others there are.
window.faintPixels = (id) => {
  const canvas = $(id), under = ground(canvas), counts = new Map();
  const { data } = canvas.getContext("2d").getImageData(0, 0, canvas.width, canvas.height);
  const words = new Uint32Array(data.buffer);
  for (const word of words) if (word >>> 24 === 255) counts.set(word, (counts.get(word) ?? 0) + 1);
  const often = [...counts].filter(([, count]) => count > Math.max(60, words.length / 4000));
  const colours = often.map(([word]) => [word & 255, (word >> 8) & 255, (word >> 16) & 255]);
  const marks = colours.filter((colour) => String(colour) !== String(under));
  return { faint: marks.filter((colour) => contrast(colour, under) < 3), marks: marks.length };
};

// How many pixels of a canvas have a colour of the style.
window.pixelsOf = (id, name) => {
  const canvas = $(id), wanted = seen([0, 0, 0], colourOf(name));
  const { data } = canvas.getContext("2d").getImageData(0, 0, canvas.width, canvas.height);
  let count = 0;
  for (let i = 0; i < data.length; i += 4) count += data[i + 3] === 255 && wanted.every((one, k) => data[i + k] === one);
  return count;
};
const colourOf = (name) => {
  const probe = $("probe");
  probe.style.color = `var(--${name})`;
  return getComputedStyle(probe).color;
};

// How the marks of a legend look where colours aren't seen: their sizes, patterns and borders.
window.shapesOf = (legend) =>
  [...document.querySelectorAll(`${legend} i`)].filter((at) => at.checkVisibility()).map((at) => {
    const { width, height, borderRadius, borderTopStyle, borderTopWidth, backgroundImage } = getComputedStyle(at);
    const pattern = backgroundImage.replace(/(?:rgba?|color)\([^)]*\)/g, "");
    return [width, height, borderRadius, borderTopStyle, borderTopWidth, pattern].join(" ");
  });

// Tables that reach beyond the screen with nothing that scrolls round them, and captions inside of what scrolls.
window.cutTables = () => {
  const scrolls = (at) => at && (["auto", "scroll"].includes(getComputedStyle(at).overflowX) ? at : scrolls(at.parentElement));
  const all = [...document.querySelectorAll("table")].filter((at) => at.checkVisibility());
  const cut = all.filter((at) => {
    const room = scrolls(at.parentElement), right = at.getBoundingClientRect().right;
    return right > innerWidth && !(room && room.tabIndex === 0 && room.getBoundingClientRect().right <= innerWidth);
  });
  const captions = [...document.querySelectorAll("caption")].filter((at) => at.checkVisibility() && scrolls(at.parentElement));
  return [...cut, ...captions].map((at) => at.outerHTML.slice(0, 60));
};

// What lacks a name for those who don't see it.
window.unnamed = () => {
  const named = (at) => at.getAttribute("aria-label") || at.getAttribute("aria-labelledby") || at.textContent.trim() || at.labels?.length;
  const nameless = [...document.querySelectorAll("button, input, canvas, progress, [tabindex]")].filter((at) => !named(at));
  const entitled = (at) => at.caption?.textContent || $(at.getAttribute("aria-labelledby"))?.textContent;
  const tables = [...document.querySelectorAll("table")].filter((at) => at.checkVisibility() && !entitled(at));
  const heads = [...document.querySelectorAll("th")].filter((at) => !at.scope);
  return [...nameless, ...tables, ...heads].map((at) => at.outerHTML.slice(0, 80));
};
