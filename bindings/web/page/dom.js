// Elements of the page.
export const $ = (id) => document.getElementById(id);

export function element(name, text, className) {
  const made = document.createElement(name);
  if (text !== undefined) made.textContent = text;
  if (className) made.className = className;
  return made;
}

// Code of fewer letters stays in one line.
const SHORT = 24;

// A paragraph in which words between backquotes are code.
export function withCode(text) {
  const made = element("p");
  text.split("`").forEach((part, i) => made.append(i % 2 ? element("code", part, part.length < SHORT ? "short" : "") : part));
  return made;
}
