// Elements of the page.

export const made = (name, text, fields = {}) => Object.assign(document.createElement(name), { textContent: text, ...fields });

export function placed(element, style) {
  element.style.cssText = style;
  return element;
}
