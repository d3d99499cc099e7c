// What tests do with the page in a tab of a browser.
export const READY = `document.documentElement.dataset.ready`;
export const shows = title => `frames[0].document.readyState === "complete" && frames[0].document.title === ${JSON.stringify(title)}`;
export const click = (tab, id) => tab.run(`document.getElementById(${JSON.stringify(id)}).click()`);
export const hasNotice = words => `document.getElementById("notices").textContent.includes(${JSON.stringify(words)})`;
export const ends = words => `document.getElementById("state").textContent === ${JSON.stringify(words)}`;
export const text = (tab, id) => tab.run(`return document.getElementById(${JSON.stringify(id)}).textContent`);
export const hasText = (id, words) => `document.getElementById(${JSON.stringify(id)}).textContent.includes(${JSON.stringify(words)})`;

// Sets fields and sliders by their ids, as a user does.
export const set = (tab, values) => tab.run(`
  for (const [name, value] of Object.entries(${JSON.stringify(values)})) {
    const it = document.getElementById(name);
    it.value = value;
    for (const type of ["input", "change"]) it.dispatchEvent(new Event(type, { bubbles: true }));
  }`);

// Types a path and presses Go.
export const go = (tab, path) => tab.run(`
  document.getElementById("target").value = ${JSON.stringify(path)};
  document.getElementById("go").requestSubmit()`);
