// Where layers come from: files that are chosen or dropped, and the examples inside the page.
import { $, element } from "./dom.js";
import { number } from "./numbers.js";

// `open(file)` is told each layer.
export function takeFiles(open) {
  const drop = $("drop");
  const chosen = (file) => {
    $("several").textContent = "";
    mark(null);
    open(file);
  };
  const over = (is) => (event) => {
    event.preventDefault();
    drop.classList.toggle("over", is);
  };
  for (const type of ["dragenter", "dragover"]) document.addEventListener(type, over(true));
  document.addEventListener("dragleave", over(false));
  document.addEventListener("drop", (event) => {
    over(false)(event);
    const { files } = event.dataTransfer;
    if (files.length > 1) refuse(files.length);
    else if (files.length) chosen(files[0]);
  });
  // The choice is forgotten, so that a file that was repaired can be chosen again.
  $("file").addEventListener("change", () => {
    if ($("file").files[0]) chosen($("file").files[0]);
    $("file").value = "";
  });
}

function refuse(count) {
  $("several").textContent = `Drop one file at a time. You dropped ${number(count)}, and none of them was opened.`;
  $("several").scrollIntoView({ block: "center" });
}

// Marks the example that is shown.
function mark(shown) {
  for (const button of document.querySelectorAll("#choice button")) button.setAttribute("aria-pressed", String(button === shown));
}

// The examples inside the page, and three broken ones, which are made here by changing a byte or leaving out the end.
export function takeExamples(open) {
  for (const script of document.querySelectorAll("script[data-example]")) {
    const button = element("button", script.dataset.title);
    button.type = "button";
    button.setAttribute("aria-pressed", "false");
    button.onclick = async () => {
      const bytes = new Uint8Array(await unpacked(script.dataset.layer ?? script.id));
      const broken = (script.textContent.trim() && script.dataset.layer ? script.textContent.trim().split(" ") : []).map((one) => one.split("="));
      for (const [at, byte] of broken) bytes[at] = Number(byte);
      const length = Number(script.dataset.length ?? bytes.length);
      $("several").textContent = "";
      mark(button);
      open(new File([bytes.subarray(0, length)], script.dataset.example));
    };
    $(script.dataset.layer ? "spoiled" : "examples").append(button);
  }
}
