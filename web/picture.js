// The sequence diagram as a picture, in the words of the page: two time lines, the page's and the device's, and an arrow for each
// datagram (as in RFC 793 section 3.4, figures 7 to 13). It is one SVG file.
import { labelOf, wordsOf } from "./sequence.js";

const LEFT = 190, RIGHT = 610, WIDTH = 800, TOP = 70, STEP = 34, SLOPE = 16, GAP = 26;

const escaped = text => String(text).replace(/[&<>"]/g, sign => `&#${sign.charCodeAt(0)};`);

const STYLE = `text { font: 12px ui-monospace, monospace; fill: #142c24; } .head { font-weight: bold; }
path { stroke: #142c24; stroke-width: 1.2; fill: none; } .line { stroke: #7a938a; } .time { fill: #4d635b; }
.from path { stroke: #06705a; } .again path { stroke: #b36b00; } .again .wire { stroke-dasharray: 6 3; }
.again text { fill: #7a4900; } .other path, .lost path { stroke: #b00020; } .other text, .lost text { fill: #b00020; }`;

// Rows as `Sequence` and `readReport` give them, each with its time as a text; `unit` is that of the times.
export function drawSequence(rows, { title = "A sequence diagram", unit = "s" } = {}) {
  const long = unit === "s" ? 0.5 : 1, parts = [];
  let y = TOP, then = null;
  for (const row of rows) {
    const wait = then === null ? 0 : row.time - then;
    if (wait >= long) parts.push(pause(y += GAP, `${+wait.toFixed(3)} ${unit} later`));
    then = row.time;
    parts.push(arrow(row, y += STEP, unit));
  }
  const height = y + 60, name = escaped(title);
  return `<svg xmlns="http://www.w3.org/2000/svg" viewBox="0 0 ${WIDTH} ${height}" width="${WIDTH}" role="img" aria-label="${name}">
<style>${STYLE}</style><rect width="100%" height="100%" fill="#ffffff"/>
<text x="20" y="24" class="head">${name}</text>
<text x="${LEFT}" y="${TOP - 14}" text-anchor="middle" class="head">this page</text>
<text x="${RIGHT}" y="${TOP - 14}" text-anchor="middle" class="head">device</text>
<path class="line" d="M${LEFT} ${TOP}V${height - 20}M${RIGHT} ${TOP}V${height - 20}"/>
${parts.join("\n")}
</svg>
`;
}

function pause(y, words) {
  return `<text x="${(LEFT + RIGHT) / 2}" y="${y + 4}" text-anchor="middle" class="time">${escaped(words)}</text>`;
}

function arrow(row, y, unit) {
  const { isToNode, isAgain, otherAt, fate = [] } = row, isLost = fate.includes("lost");
  const names = [isToNode ? "to" : "from", isAgain && "again", otherAt !== null && "other", isLost && "lost"].filter(Boolean);
  const [start, end, sign] = isToNode ? [LEFT, RIGHT, 1] : [RIGHT, LEFT, -1];
  const at = isLost ? (LEFT + RIGHT) / 2 + sign * 60 : end, low = y + SLOPE * Math.abs(at - start) / (RIGHT - LEFT);
  const cross = `M${at - 5} ${low - 5}l10 10m-10 0l10 -10`, tip = `M${at - sign * 9} ${low - 5}L${at} ${low}L${at - sign * 8} ${low + 4}`;
  const side = isToNode ? `x="${LEFT - 8}" text-anchor="end"` : `x="${RIGHT + 8}"`;
  const { what, numbers } = labelOf(row), words = [what, numbers, wordsOf(row)].filter(Boolean).join("  ");
  return `<g class="${names.join(" ")}"><path class="wire" d="M${start} ${y}L${at} ${low}"/><path class="tip" d="${isLost ? cross : tip}"/>
<text ${side} y="${y + 4}" class="time">${escaped(`${row.who}  ${row.time} ${unit === "s" ? "s" : "t"}`)}</text>
<text x="${(LEFT + RIGHT) / 2}" y="${y + 2}" text-anchor="middle">${escaped(words)}</text></g>`;
}
