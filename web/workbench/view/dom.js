/** Makes and changes elements. Nothing here writes markup from text. */

const SVG = "http://www.w3.org/2000/svg";

/** @typedef {string | Node | null | undefined | false} Child */
/** @typedef {{[name: string]: string | number | boolean | null | undefined | ((event: any) => void)}} Attributes */

/**
 * An element of the page, which has to be there.
 *
 * @param {string} id
 * @returns {HTMLElement}
 */
export function byId(id) {
    const found = document.getElementById(id);
    if (!found) throw new Error(`the page has no element ${id}`);
    return found;
}

/**
 * Gives an element attributes; functions become listeners, and null or false takes one away.
 *
 * @param {Element} element
 * @param {Attributes} attributes
 */
export function set(element, attributes) {
    for (const [name, value] of Object.entries(attributes)) {
        if (typeof value === "function") element.addEventListener(name.slice(2), value);
        else if (name === "style") styleOf(element).cssText = String(value); // a policy forbids the attribute
        else if (value === null || value === undefined || value === false) element.removeAttribute(name);
        else if (element.getAttribute(name) !== String(value)) element.setAttribute(
            name,
            value === true ? "" : String(value),
        );
    }
    return element;
}

/**
 * @param {Element} element
 * @returns {CSSStyleDeclaration}
 */
function styleOf(element) {
    return /** @type {ElementCSSInlineStyle} */ (/** @type {unknown} */ (element)).style;
}

/**
 * A new element of HTML.
 *
 * @param {string} tag
 * @param {Attributes} [attributes]
 * @param {...Child} children
 * @returns {HTMLElement}
 */
export function h(tag, attributes = {}, ...children) {
    const element = document.createElement(tag);
    set(element, attributes);
    element.append(
        .../** @type {(string | Node)[]} */ (children.filter((it) => it !== null && it !== undefined && it !== false)),
    );
    return element;
}

/**
 * A new element of SVG.
 *
 * @param {string} tag
 * @param {Attributes} [attributes]
 * @param {...(Node | string)} children
 * @returns {SVGElement}
 */
export function s(tag, attributes = {}, ...children) {
    const element = /** @type {SVGElement} */ (document.createElementNS(SVG, tag));
    set(element, attributes);
    element.append(...children);
    return element;
}

/**
 * Sets a text where it differs.
 *
 * @param {Element} element
 * @param {string} text
 */
export function say(element, text) {
    if (element.textContent !== text) element.textContent = text;
}

/**
 * A text in which words in backticks are code.
 *
 * @param {Element} element
 * @param {string} text
 * @param {(part: string) => (string | Node)[]} [plain] what the rest is made of
 */
export function sayWithCode(element, text, plain = (part) => [part]) {
    if (element.getAttribute("data-said") === text) return;
    element.setAttribute("data-said", text);
    element.replaceChildren(...text.split("\x60").flatMap((part, place) => (place % 2 ? [h("code", {}, part)] : plain(part))));
}

/**
 * Keeps the children of an element in step with a list: elements stay while their keys do.
 *
 * @template T
 * @param {Element} parent
 * @param {T[]} items
 * @param {(item: T) => string} key
 * @param {(item: T) => Element} make
 * @param {(element: any, item: T) => void} [update]
 */
export function keep(parent, items, key, make, update) {
    const old = new Map([...parent.children].map((child) => [child.getAttribute("data-key"), child]));
    let at = parent.firstElementChild;
    for (const item of items) {
        const name = key(item);
        let element = old.get(name);
        if (element) old.delete(name);
        else {
            element = make(item);
            element.setAttribute("data-key", name);
        }
        if (element === at) at = at.nextElementSibling;
        else parent.insertBefore(element, at);
        update?.(element, item);
    }
    for (const element of old.values()) element.remove();
}
