"use strict";
// The page of tools/gfx watch. What comes from the scene is put in as text, never as markup.

const part = (id) => document.getElementById(id);
const context = part("canvas").getContext("2d");
let state = { count: -1, shown: null };
let chosen = null; // the pixel that was clicked
let over = null; // the pixel under the mouse
let timer = null; // of the running animation
let asked = 0; // counts what is drawn, so that an answer that comes late is not shown
let told = 0; // the same for histories

const frame = () => Number(part("frame").value);
const zoom = () => Number(part("zoom").value);

async function get(path, numbers) {
  const answer = await fetch(path + "?" + new URLSearchParams(numbers));
  if (!answer.ok) throw new Error(await answer.text());
  return answer;
}

function here(more = {}) {
  return { version: state.shown.version, frame: frame(), ...more };
}

function listItem(text, name) {
  const item = document.createElement("li");
  item.textContent = text;
  if (name) item.className = name;
  return item;
}

// ---- what is shown

function put(pixels) {
  const [width, height] = state.shown.size;
  const canvas = part("canvas");
  if (canvas.width !== width || canvas.height !== height) {
    canvas.width = width;
    canvas.height = height;
  }
  const image = context.createImageData(width, height);
  for (let from = 0, to = 0; from < pixels.length; from += 3, to += 4) {
    image.data[to] = pixels[from];
    image.data[to + 1] = pixels[from + 1];
    image.data[to + 2] = pixels[from + 2];
    image.data[to + 3] = 255;
  }
  context.putImageData(image, 0, 0);
  fit();
  tellPlace();
}

function tellPlace() {
  if (!over) return;
  const bytes = context.getImageData(over.x, over.y, 1, 1).data;
  part("place").value = `${over.x} ${over.y}  ${[...bytes.slice(0, 3)].map((byte) => byte.toString(16).padStart(2, "0")).join("")}`;
}

function fit() {
  const canvas = part("canvas"), mark = part("mark");
  canvas.style.width = canvas.width * zoom() + "px";
  canvas.style.height = canvas.height * zoom() + "px";
  part("zoom-number").value = zoom();
  mark.hidden = chosen === null;
  if (chosen) {
    mark.style.left = chosen.x * zoom() + "px";
    mark.style.top = chosen.y * zoom() + "px";
    mark.style.width = mark.style.height = zoom() + "px";
  }
}

function fromHex(text) {
  const bytes = new Uint8Array(text.length / 2);
  for (let k = 0; k < bytes.length; k++) bytes[k] = parseInt(text.substr(2 * k, 2), 16);
  return bytes;
}

function legend(entries) {
  part("legend-title").hidden = entries.length === 0;
  part("legend").replaceChildren(...entries.map((entry) => {
    const item = listItem(""), swatch = document.createElement("span");
    swatch.className = "swatch";
    swatch.style.background = entry.color;
    item.append(swatch, `${entry.pixels}  ${entry.who}`);
    return item;
  }));
}

async function show() {
  if (!state.shown) return;
  const mine = ++asked, map = part("map").value;
  part("frame-number").value = frame();
  for (const [number, line] of [...part("notes").children].entries()) line.classList.toggle("now", number === frame());
  try {
    if (map === "picture") {
      const pixels = new Uint8Array(await (await get("/picture", here())).arrayBuffer());
      if (mine !== asked) return;
      put(pixels);
      legend([]);
    } else {
      const found = await (await get("/owners", here({ encoders: map === "encoders" ? 1 : 0 }))).json();
      if (mine !== asked) return;
      if (found.fault) return legend([{ color: "#000", pixels: "", who: found.fault }]);
      put(fromHex(found.pixels));
      legend(found.legend);
    }
  } catch (fault) {
    return; // a newer version stands already; its state is on the way
  }
}

async function tell() {
  if (!chosen || !state.shown) return;
  const { x, y } = chosen, [width, height] = state.shown.size;
  if (x >= width || y >= height) return;
  const head = `frame ${frame()}, column ${x}, row ${y}`, mine = ++told;
  part("history").replaceChildren(listItem(head + (state.slow ? " .. (slow: gfx_trace is not built)" : " .."), "quiet"));
  try {
    const found = await (await get("/pixel", here({ x, y }))).json();
    if (mine !== told) return;
    part("history").replaceChildren(listItem(head, "quiet"), ...(found.lines || [found.fault]).map((line) => listItem(line)));
  } catch (fault) {
    return;
  }
}

// ---- what comes from the server

function take(news) {
  const fresh = news.shown && (!state.shown || news.shown.version !== state.shown.version);
  state = news;
  part("name").textContent = news.name;
  document.title = news.name;
  part("fault").hidden = !news.fault;
  part("fault").textContent = news.fault || "";
  part("sheet").classList.toggle("old", Boolean(news.fault));
  if (!news.shown) return;
  const { frames, size, encoders, notes, seconds, dropped } = news.shown;
  part("about").textContent = `${frames} frame${frames === 1 ? "" : "s"} of ${size[0]} by ${size[1]}, ${encoders} encoder${encoders === 1 ? "" : "s"}, drawn in ${seconds} s`;
  part("dropped-title").hidden = !dropped;
  part("dropped").replaceChildren(...(dropped || []).map((line) => listItem(line.text, "some")));
  if (!fresh) return;
  part("frame").max = frames - 1;
  part("notes").replaceChildren(...notes.map((note) => listItem(note, note.endsWith("dropped 0") ? "" : "some")));
  show();
  tell();
}

async function listen() {
  for (;;) {
    try {
      take(await (await get("/state", { since: state.count })).json());
      part("live").textContent = "live";
      part("live").className = "";
    } catch (fault) {
      part("live").textContent = "tools/gfx watch has ended";
      part("live").className = "lost";
      await new Promise((done) => setTimeout(done, 1000));
    }
  }
}

// ---- what people do

function step(by) {
  if (!state.shown) return;
  part("frame").value = (frame() + by + state.shown.frames) % state.shown.frames;
  show();
  if (!timer) tell();
}

function run() {
  timer = timer ? clearInterval(timer) : setInterval(() => step(1), 50);
  part("run").textContent = timer ? "stop" : "play";
}

function under(event) {
  const box = part("canvas").getBoundingClientRect();
  return { x: Math.floor((event.clientX - box.left) / zoom()), y: Math.floor((event.clientY - box.top) / zoom()) };
}

part("frame").addEventListener("input", () => { show(); tell(); });
part("zoom").addEventListener("input", fit);
part("map").addEventListener("change", show);
part("run").addEventListener("click", run);
part("canvas").addEventListener("mousemove", (event) => {
  over = under(event);
  tellPlace();
});
part("canvas").addEventListener("click", (event) => {
  chosen = under(event);
  fit();
  tell();
});
part("view").addEventListener("wheel", (event) => {
  if (!event.ctrlKey) return;
  event.preventDefault();
  part("zoom").value = zoom() + (event.deltaY < 0 ? 1 : -1);
  fit();
}, { passive: false });
document.addEventListener("keydown", (event) => {
  if (event.target.tagName === "SELECT") return;
  if (event.key === " ") { event.preventDefault(); run(); }
  if (event.target.type === "range") return;
  if (event.key === "ArrowRight") step(1);
  if (event.key === "ArrowLeft") step(-1);
});
listen();
