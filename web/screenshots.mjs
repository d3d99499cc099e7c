// Takes the screenshots of docs/: node web/screenshots.mjs [FOLDER]. It needs Chromium (CHROMIUM names another) and nothing built.
//
//     page.png      the device inside the page, with 30 % loss
//     browser.png   the first screen
//     state.png     the device with all its values, dark
//     rules.png     a server by uIP's own rules, and its wrong page
import { join } from "node:path";
import { startChromium } from "./test/chromium.mjs";
import { serve } from "./test/server.mjs";
import { top } from "./test/node_process.mjs";

const folder = process.argv[2] ?? join(top, "docs");
if (["-h", "--help"].includes(folder)) {
  console.log("usage: node web/screenshots.mjs [FOLDER]");
  process.exit(0);
}
const READY = `document.documentElement.dataset.ready`, WIDE = [1400, 900], SMALL = [1200, 820];
const sleep = milliseconds => new Promise(resolve => setTimeout(resolve, milliseconds));
const step = async tab => {
  await tab.run(`document.querySelector("[data-tour=go]").click()`);
  await tab.until(`!document.querySelector("[data-tour=go]").disabled`, 120);
};

async function shot(browser, server, name, { size = WIDE, hash = "", isDark = false }, prepare) {
  const tab = await browser.open("about:blank");
  await tab.size(...size);
  await tab.call("Emulation.setEmulatedMedia", { features: [{ name: "prefers-color-scheme", value: isDark ? "dark" : "light" }] });
  await tab.call("Page.navigate", { url: `${server.url}${hash}` });
  await tab.until(READY);
  await prepare(tab);
  await sleep(600);
  await tab.picture(join(folder, name));
  console.log(join(folder, name));
  await tab.call("Page.close");
}

// Does the step of the tour that the address names.
async function doStep(tab) {
  await tab.until(`frames[0].document.body?.innerText.includes("full")`);
  await step(tab);
}

async function withValues(tab) {
  await tab.until(`frames[0].document.body?.innerText.includes("full")`);
  await tab.run(`
    document.querySelector("#panel details").open = true;
    const level = document.querySelector(".sensors [type=range]");
    level.value = 73;
    level.dispatchEvent(new Event("input"));
    frames[0].document.querySelector('a[href="/lamp-on.html"]').click()`);
  await tab.until(`frames[0].document.getElementById("lamp")?.className === "on"`);
  await sleep(2000);
}

const server = await serve({}), browser = await startChromium();
try {
  await shot(browser, server, "browser.png", {}, () => {});
  await shot(browser, server, "page.png", { hash: "#device=sensor&tour=3&seed=7" }, doStep);
  await shot(browser, server, "rules.png", { hash: "#device=sensor&tour=5&seed=7" }, doStep);
  await shot(browser, server, "state.png", { size: SMALL, hash: "#device=sensor&seed=7", isDark: true }, withValues);
} finally {
  await browser.stop();
  server.stop();
}
