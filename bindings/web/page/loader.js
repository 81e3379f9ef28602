// The letters of the page's encoding, and the byte of each.
const LETTERS = new TextDecoder(document.characterSet).decode(Uint8Array.from({ length: 256 }, (_, i) => i));
const BYTES = new Map([...LETTERS].map((letter, i) => [letter, i]));

// What make_page.py packed: a letter for each compressed byte, but for some, which are written 64 higher and with a sign before them.
async function unpacked(id) {
  const text = document.getElementById(id).textContent, packed = new Uint8Array(text.length);
  let at = 0;
  for (let i = 0; i < text.length; i++) packed[at++] = text[i] === "=" ? BYTES.get(text[++i]) - 64 : BYTES.get(text[i]);
  return new Response(new Blob([packed.subarray(0, at)]).stream().pipeThrough(new DecompressionStream("gzip"))).arrayBuffer();
}

// The page's content is shown, and then its script becomes a script inside the page, which the policy allows.
Promise.all(["content", "main"].map(unpacked)).then((parts) => {
  const [content, main] = parts.map((part) => new TextDecoder().decode(part)), script = document.createElement("script");
  document.querySelector("main").innerHTML = content;
  script.type = "module";
  script.textContent = main;
  document.head.append(script);
});
