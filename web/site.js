// A site's image from files, by docs/FORMATS.md, and what an image has.
const MAGIC = "UIPSITE2", MOST_FILES = 1024, LONGEST_IMAGE = 1 << 24;
// Content types that a node does not know by a name's end. tools/pack.py has the same table.
const TYPES = {
  js: "text/javascript", mjs: "text/javascript", json: "application/json", map: "application/json", webmanifest: "application/manifest+json",
  wasm: "application/wasm", xml: "text/xml", csv: "text/csv", md: "text/plain", htm: "text/html", svg: "image/svg+xml", ico: "image/x-icon",
  jpeg: "image/jpeg", webp: "image/webp", avif: "image/avif", woff2: "font/woff2", woff: "font/woff", ttf: "font/ttf", pdf: "application/pdf",
  mp3: "audio/mpeg", wav: "audio/wav",
};
// Those that it knows in small letters alone. A script's name has to end in .shtml.
const KNOWN = { html: "text/html", txt: "text/plain", css: "text/css", png: "image/png", gif: "image/gif", jpg: "image/jpeg" };

const VALUE = /%! +value(-json|-html)? +(0|[1-9]|1[0-5])(?=[ \r\n]|$)/g;   // docs/FORMATS.md, Scripts

const ascii = text => Array.from(text, sign => sign.charCodeAt(0));

const types = new Map(Object.entries({ ...KNOWN, ...TYPES }));
const isJson = bytes => "{[".includes(String.fromCharCode(bytes.find(byte => byte !== 32 && (byte < 9 || byte > 13))));
// That of its own: JSON for a script that begins so, else by the end of its name.
function typeOf(name, bytes) {
  if (name.endsWith(".shtml") && isJson(bytes)) return "application/json";
  const ending = /[^/]\.([^./]*)$/.exec(name)?.[1] ?? "";
  return Object.hasOwn(KNOWN, ending) ? "" : types.get(ending.toLowerCase()) ?? "";
}

// Each file is { name, bytes }; a name begins with "/".
export function pack(files) {
  if (files.length > MOST_FILES) throw new Error(`a site has ${MOST_FILES} files at most, and these are ${files.length}`);
  const parts = [ascii(MAGIC), [files.length >> 8, files.length & 255]];
  for (const { name, bytes } of files) {
    if (!/^\/[!->@-~]{0,63}$/.test(name)) throw new Error(`"${name}" is no name for a file of a site: at most 64 ASCII characters, no space, no "?"`);
    const length = bytes.length, type = typeOf(name, bytes);
    parts.push([name.length], ascii(name), [type.length], ascii(type));
    parts.push([length >>> 24, length >> 16 & 255, length >> 8 & 255, length & 255], bytes);
  }
  const length = parts.reduce((sum, part) => sum + part.length, 0);
  if (length > LONGEST_IMAGE) throw new Error(`a site has 16 MiB at most, and this one has ${(length / 2 ** 20).toFixed(1)} MiB`);
  const image = new Uint8Array(length);
  let at = 0;
  for (const part of parts) {
    image.set(part, at);
    at += part.length;
  }
  return image;
}

// The files of an image that is whole.
export function unpack(image) {
  const text = (at, length) => String.fromCharCode(...image.subarray(at, at + length)), files = [];
  const isTyped = text(0, 8) === MAGIC;
  for (let at = 10; at < image.length;) {
    const name = text(at + 1, image[at]);
    at += 1 + image[at];
    if (isTyped) at += 1 + image[at];
    const length = new DataView(image.buffer, image.byteOffset + at).getUint32(0);
    files.push({ name, bytes: image.subarray(at + 4, at + 4 + length) });
    at += 4 + length;
  }
  return files;
}

// The values that a site's scripts show: { number, isText }. A value that no script shows as it is, for JSON and HTML alone, is a text.
export function valuesOf(files) {
  const found = new Map();
  for (const { name, bytes } of files) {
    if (!name.endsWith(".shtml")) continue;
    for (const [, form = "", number] of new TextDecoder().decode(bytes).matchAll(VALUE))
      found.set(+number, (found.get(+number) ?? true) && form !== "");
  }
  return [...found].map(([number, isText]) => ({ number, isText })).sort((a, b) => a.number - b.number);
}

// The functions of a script, each with the number of words that it takes.
const FUNCTIONS = new Map([["file-stats", 1], ["tcp-connections", 0], ["net-stats", 0], ["ticks", 0], ["value", 1], ["value-json", 1], ["value-html", 1]]);

// What does not work in a site, in words: a path that has no file, and what has no effect in a script.
export function warningsOf(files) {
  const warnings = [], inFolder = files.find(({ name }) => /.\/index\.html$/.test(name))?.name;
  if (!files.some(({ name }) => name === "/index.html")) warnings.push("there is no /index.html, so the path / has no page");
  if (inFolder) warnings.push(`${inFolder}: the path ${inFolder.slice(0, -"index.html".length)} does not lead to it, so a link has to name the file`);
  for (const { name, bytes } of files) {
    const text = new TextDecoder("latin1").decode(bytes), isScript = name.endsWith(".shtml");
    if (/\.html?$/.test(name) && text.includes("%!")) warnings.push(`${name}: only in a file whose name ends in .shtml is %! a directive`);
    for (const [, line] of isScript ? text.matchAll(/%!([^\n]*)/g) : []) {
      const isInclude = line[0] === ":", words = line.replace(/^:|\r$/g, "").split(" ").filter(Boolean);
      const count = isInclude ? 1 : 1 + FUNCTIONS.get(words[0]);   // NaN if there is no such function
      if (/^value/.test(words[0]) && count > 1 && !/^(\d|1[0-5])$/.test(words[1]))
        warnings.push(`${name}: "${words[1] ?? ""}" is no number from 0 to 15, so its directive displays nothing`);
      if (isNaN(count)) warnings.push(`${name}: there is no function "${words[0] ?? ""}", so its directive displays nothing`);
      if (words.length > count) warnings.push(`${name}: "${words.slice(count).join(" ")}" follows a directive in its line, so it is not sent`);
    }
  }
  return warnings;
}

// The files that were dropped or chosen, below the folder that all of them share.
export async function filesOf(items) {
  const found = [];
  async function enter(entry) {
    if (entry.name.startsWith(".")) return;
    if (entry.isFile) {
      const file = await new Promise((resolve, reject) => entry.file(resolve, reject));
      found.push({ path: entry.fullPath.split("/").slice(1), file });
      return;
    }
    const reader = entry.createReader();   // which gives a hundred at a time
    for (let some; (some = await new Promise((resolve, reject) => reader.readEntries(resolve, reject))).length;)
      for (const it of some) await enter(it);
  }
  for (const item of items) {
    if (item instanceof File) found.push({ path: (item.webkitRelativePath || item.name).split("/"), file: item });
    else await enter(item);
  }
  const kept = found.filter(({ path }) => !path.some(part => part.startsWith(".")));
  while (kept.length && kept.every(({ path }) => path.length > 1 && path[0] === kept[0].path[0])) kept.forEach(it => it.path.shift());
  return Promise.all(kept.map(async ({ path, file }) => ({ name: `/${path.join("/")}`, bytes: new Uint8Array(await file.arrayBuffer()) })));
}

// The image of what was dropped or chosen: one that is packed already, or files.
export async function imageOf(items) {
  const files = await filesOf(items);
  if (!files.length) throw new Error("no files there");
  if (files.length === 1 && files[0].name.endsWith(".img")) return files[0].bytes;
  if (!files.some(it => it.name === "/index.html") && files.length === 1 && files[0].name.endsWith(".html")) files[0].name = "/index.html";
  return pack(files.sort((a, b) => a.name < b.name ? -1 : 1));
}
