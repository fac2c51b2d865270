// Elements with their attributes and children.

export function made(name, attributes = {}, ...children) {
  const element = document.createElement(name);
  for (const [key, value] of Object.entries(attributes)) {
    if (key === "act") element.addEventListener("click", value);
    else if (key === "text") element.textContent = value;
    else if (value !== null && value !== false) element.setAttribute(key, value === true ? "" : value);
  }
  element.append(...children.filter((child) => child !== null));
  return element;
}

export function button(text, act, attributes = {}) {
  return made("button", { type: "button", act, text, ...attributes });
}

export function byId(id) {
  return document.getElementById(id);
}
