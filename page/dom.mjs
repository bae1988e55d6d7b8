// Elements of the page. What comes from a source or a history becomes text of them, and never markup.

export const find = (id) => document.getElementById(id);

// An element with a class, and with texts and elements in it.
export function made(tag, name, ...content) {
  const element = document.createElement(tag);
  if (name) element.className = name;
  element.append(...content);
  return element;
}

export function shape(tag, attributes) {
  const element = document.createElementNS('http://www.w3.org/2000/svg', tag);
  for (const [name, value] of Object.entries(attributes)) element.setAttribute(name, value);
  return element;
}

export function button(label, act) {
  const element = made('button', '', label);
  element.type = 'button';
  element.addEventListener('click', act);
  return element;
}

// A text in which what stands in backquotes is code.
export function withCode(text) {
  return text.split('`').map((part, index) => (index % 2 === 1 ? made('code', '', part) : part));
}

export const decoded = (bytes) => new TextDecoder().decode(bytes);

export function plural(count, one, several) {
  return `${count.toLocaleString('en')} ${count === 1 ? one : several}`;
}
