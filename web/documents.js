// A document of the repository on the page: Markdown as elements. It knows what our documents use: headings, paragraphs, lists, tables,
// code, quotations, pictures and links. No text of a document becomes HTML as it is.
const make = (tag, properties = {}, ...children) => {
  const it = Object.assign(document.createElement(tag), properties);
  it.append(...children);
  return it;
};
// The anchor of a heading, as code hosts make it.
const anchorOf = text => text.toLowerCase().replace(/[^\w\- ]/g, "").replaceAll(" ", "-");

// Code, a picture, a link, an address, strong words, emphasis, and an escaped sign.
const INLINE = new RegExp([/`+([^`]+)`+/, /!\[([^\]]*)\]\(([^)]+)\)/, /\[((?:[^[\]]|\[[^\]]*\]|`[^`]*`)*)\]\(([^)\s]+)\)/, /<(https?:[^>]+)>/,
  /\*\*(.+?)\*\*/, /\*([^*]+)\*/, /\\([\\`*_[\]<>|])/].map(it => it.source).join("|"), "s");

// The nodes of a paragraph's text. `linkTo` returns the address of a link and of a picture.
function inline(text, linkTo) {
  const parts = INLINE.exec(text);
  if (!parts) return [text];
  const [all, code, alt, picture, label, target, plain, strong, emphasis, sign] = parts, rest = text.slice(parts.index + all.length);
  const link = (to, ...children) => make("a", { href: linkTo(to) }, ...children);
  const node = code !== undefined ? make("code", { textContent: code })
    : picture ? make("img", { src: linkTo(picture), alt })
      : target ? link(target, ...inline(label, linkTo))
        : plain ? link(plain, plain)
          : strong ? make("strong", {}, ...inline(strong, linkTo)) : emphasis ? make("em", {}, ...inline(emphasis, linkTo)) : sign;
  return [text.slice(0, parts.index), node, ...inline(rest, linkTo)];
}

const cellsOf = line => line.trim().replace(/^\||\|$/g, "").split(/(?<!\\)\|/).map(it => it.trim());

function tableOf(lines, linkTo) {
  const row = (tag, line) => make("tr", {}, ...cellsOf(line).map(it => make(tag, {}, ...inline(it, linkTo))));
  const [head, , ...rest] = lines;
  const table = make("table", {}, make("thead", {}, row("th", head)), make("tbody", {}, ...rest.map(it => row("td", it))));
  return make("div", { className: "wide" }, table);
}

const ITEM = /^( *)(?:[-*+]|\d+\.) +/;

// A list: an item begins with a sign, and what is indented after it belongs to it.
function listOf(lines, linkTo) {
  const items = [], list = make(/^ *\d/.test(lines[0]) ? "ol" : "ul"), indent = ITEM.exec(lines[0])[0].length;
  for (const line of lines) {
    const [sign, margin] = ITEM.exec(line) ?? [];
    if (sign && margin.length < 2) items.push([line.slice(sign.length)]);
    else items.at(-1).push(line.slice(Math.min(indent, /^ */.exec(line)[0].length)));
  }
  for (const item of items) {
    const [first, ...more] = blocksOf(item, linkTo);
    list.append(make("li", {}, ...first?.tagName === "P" ? [...first.childNodes] : [first ?? ""], ...more));
  }
  return list;
}

// Takes the lines while they belong to a block.
function taken(lines, isPart) {
  const part = [];
  while (lines.length && isPart(lines[0], part)) part.push(lines.shift());
  return part;
}

const isStart = line => /^(#{1,6} |```|\||>|    )/.test(line) || ITEM.test(line);

function headingOf(lines, linkTo) {
  const [, { length }, words] = /^(#+) +(.*)/.exec(lines.shift()), it = make(`h${length}`, {}, ...inline(words, linkTo));
  return Object.assign(it, { id: `doc-${anchorOf(it.textContent)}` });
}

function fencedOf(lines) {
  lines.shift();
  const code = taken(lines, it => !it.startsWith("```")).join("\n");
  lines.shift();
  return make("pre", { textContent: code });
}

function indentedOf(lines) {
  const isCode = it => it.startsWith("    "), code = taken(lines, it => isCode(it) || !it.trim() && isCode(lines[1] ?? ""));
  return make("pre", { textContent: code.map(it => it.slice(4)).join("\n") });
}

function quotationOf(lines, linkTo) {
  return make("blockquote", {}, ...blocksOf(taken(lines, it => it.startsWith(">")).map(it => it.replace(/^> ?/, "")), linkTo));
}

// The lines of a list: its items, what is indented after them, also after an empty line, and lines that continue a paragraph.
const isOfList = lines => it => ITEM.test(it) || it.startsWith("  ") || (it.trim() ? !isStart(it) : /^( {2}|[-*+] |\d+\. )/.test(lines[1] ?? ""));

function blockOf(lines, linkTo) {
  const [line] = lines;
  if (/^#{1,6} /.test(line)) return headingOf(lines, linkTo);
  if (line.startsWith("```")) return fencedOf(lines);
  if (line.startsWith("    ")) return indentedOf(lines);
  if (line.startsWith("|")) return tableOf(taken(lines, it => it.startsWith("|")), linkTo);
  if (line.startsWith(">")) return quotationOf(lines, linkTo);
  if (ITEM.test(line)) return listOf(taken(lines, isOfList(lines)), linkTo);
  const words = taken(lines, (it, part) => it.trim() && !(part.length && isStart(it))).join("\n");
  return make("p", {}, ...inline(words, linkTo));
}

function blocksOf(lines, linkTo) {
  const rest = [...lines], blocks = [];
  while (rest.length) if (rest[0].trim()) blocks.push(blockOf(rest, linkTo)); else rest.shift();
  return blocks;
}

// The elements of a Markdown text.
export const rendered = (text, linkTo) => blocksOf(text.replace(/<!--.*?-->/gs, "").split("\n"), linkTo);

// The dialog that shows documents. `fetchText` returns the text of a file of the repository.
export class Documents {
  constructor(dialog, fetchText, base) {
    Object.assign(this, { dialog, fetchText, base: base ?? "", body: dialog.querySelector("article"), title: dialog.querySelector("h2") });
    this.body.addEventListener("click", event => this.#follow(event));
  }

  // Shows a file, from one of its headings on if `anchor` names it.
  async open(name, anchor = "") {
    const text = await this.fetchText(name), linkTo = target => target.startsWith("#") ? target : this.#resolved(name, target);
    this.name = name;
    this.title.textContent = name;
    this.body.replaceChildren(...name.endsWith(".md") ? rendered(text, linkTo) : [make("pre", { textContent: text })]);
    if (!this.dialog.open) this.dialog.showModal();
    this.body.scrollTop = 0;
    if (anchor) this.#showHeading(anchor);
  }

  #resolved(name, target) {
    if (/^\w+:/.test(target)) return target;
    const url = new URL(target, `http://repository/${name}`);
    return this.base + url.pathname.slice(1) + url.hash;
  }

  #showHeading(anchor) {
    [...this.body.querySelectorAll("[id]")].find(it => it.id === `doc-${anchor}`)?.scrollIntoView();
  }

  // A link to another document opens it here, and any other in a tab of its own.
  #follow(event) {
    const link = event.target.closest("a"), href = link?.getAttribute("href");
    if (!href) return;
    if (href.startsWith("#")) {
      event.preventDefault();
      return this.#showHeading(href.slice(1));
    }
    link.target = "_blank";
    link.rel = "noopener";
    if (/^\w+:/.test(href) || !/\.(md|h)(#|$)/.test(href)) return;
    event.preventDefault();
    const [name, anchor] = href.slice(this.base.length).split("#");
    this.open(name, anchor).catch(error => { this.title.textContent = error.message; });
  }
}
