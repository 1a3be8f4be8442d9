// Makes elements. Text is put in as text alone. A child may also be null, or a list of children.

/** @param {string} id */
export function byId(id) {
  const node = document.getElementById(id);
  if (node === null) throw new Error(`The page has no element ${id}.`);
  return node;
}

/** @param {string} id */
export const fieldById = (id) => /** @type {HTMLInputElement} */ (byId(id));

/** @type {T.Make<HTMLElement>} */
export const el = (tag, attributes = {}, ...children) => fill(document.createElement(tag), attributes, children);

/** @type {T.Make<SVGElement>} */
export const svg = (tag, attributes = {}, ...children) => fill(
  /** @type {SVGElement} */ (document.createElementNS('http://www.w3.org/2000/svg', tag)), attributes, children);

/** @type {<E extends Element>(node: E, attributes: T.Attributes, children: any[]) => E} */
function fill(node, attributes, children) {
  for (const [name, value] of Object.entries(attributes)) node.setAttribute(name, String(value));
  for (const child of children.flat(2)) if (child !== null) node.append(child);
  return node;
}

/** @type {T.MakeOf} */
export const paragraph = (kind, ...children) => el('p', { class: kind }, ...children);

/** @type {T.ListOf} */
export const listOf = (items, attributes = {}) => el('ul', attributes, items.map((item) => el('li', {}, item)));

/** @type {T.TitledList} */
export const titledList = (heading, title, lines) => (
  lines.length === 0 ? [] : [el(heading, {}, title), listOf(lines)]);

/** @type {T.Refill} */
export function refill(id, ...children) {
  byId(id).replaceChildren();
  fill(byId(id), {}, children);
}

/** @type {T.On} */
export function on(target, events, act) {
  const node = typeof target === 'string' ? byId(target) : target;
  for (const event of events.split(' ')) node.addEventListener(event, act);
}

/** @type {T.Tell} */
export const tell = (event, detail) => document.dispatchEvent(new CustomEvent(event, { detail }));

/** @type {T.Button} */
export function button(text, act, attributes = {}) {
  const made = el('button', { type: 'button', ...attributes }, text);
  on(made, 'click', act);
  return made;
}

/** @type {T.Link} */
export const link = (text, act) => button(text, act, { class: 'link' });

/** @type {T.AnswerAt} */
export const answerAt = (id) => (tone, ...parts) => {
  byId(id).className = `answer ${tone}`;
  refill(id, ...parts);
};

/** @type {T.Busy} */
export async function busy(id, work) {
  const control = byId(id);
  if (control.getAttribute('aria-busy') === 'true') return;
  control.setAttribute('aria-busy', 'true');
  try {
    await work();
  } finally {
    control.removeAttribute('aria-busy');
  }
}

/** @type {T.SaveFile} */
export function saveFile(name, text, type) {
  const address = URL.createObjectURL(new Blob([text], { type }));
  el('a', { href: address, download: name }).click();
  setTimeout(() => URL.revokeObjectURL(address), 10000);
}
