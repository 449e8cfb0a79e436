// The viewer: shows what the engine computed. Every grey and colour byte and every decibel comes from the file; no pixel is computed here.
"use strict";

const Quicklook = (() => {
  const scene = JSON.parse(document.getElementById("scene").textContent);
  const { rows, cols, bands } = scene;
  const $ = (id) => document.getElementById(id);
  const screen = $("screen");
  const pen = screen.getContext("2d");

  // ---- the lists of the file: each in blocks of rows, zlib in base64

  const lists = {};                      // name → Uint8Array of all bytes, once read
  const blocks = {};                     // "db1-3" → promise of a Float64Array, read on demand
  let complete = false;

  async function unpack(element) {
    const text = element.textContent;
    const packed = Uint8Array.from(atob(text), (c) => c.charCodeAt(0));
    const stream = new Blob([packed]).stream().pipeThrough(new DecompressionStream("deflate"));
    return new Uint8Array(await new Response(stream).arrayBuffer());
  }

  async function readList(name, width) {
    const whole = new Uint8Array(rows * cols * width);
    const step = scene.blockRows * cols * width;
    for (let k = 0; cols > 0 && k * scene.blockRows < rows; k++) {
      const element = $(`${name}-${k}`);
      whole.set(await unpack(element), k * step);
      element.remove();
    }
    lists[name] = whole;
  }

  // the bytes of eight places stand apart in the file; here they become floats again
  function floatsOf(bytes) {
    const n = bytes.length / 8;
    const together = new Uint8Array(bytes.length);
    for (let place = 0; place < 8; place++) {
      for (let i = 0, from = place * n; i < n; i++) together[i * 8 + place] = bytes[from + i];
    }
    return new Float64Array(together.buffer);
  }

  function decibelBlock(band, k) {
    const name = `db${band}-${k}`;
    if (!blocks[name]) {
      const element = $(name);
      if (!element) return null;
      blocks[name] = unpack(element).then(floatsOf);
      blocks[name].then((list) => { blocks[name].list = list; if (state.row >= 0) showReadout(); });
    }
    return blocks[name].list || null;
  }

  function decibel(band, row, col) {
    const list = decibelBlock(band, Math.floor(row / scene.blockRows));
    return list ? list[(row % scene.blockRows) * cols + col] : null;
  }

  // ---- places on the ground: the file's own transformation, at the nodes of a grid and read between them

  const ground = scene.ground;

  // the place of a pixel's middle: x and y in the raster's reference system, longitude and latitude; null where there is none
  function placeOnGround(row, col) {
    if (!ground) return null;
    const down = (row + 0.5) / ground.step, across = (col + 0.5) / ground.step;
    const i = Math.min(ground.down - 2, Math.floor(down)), j = Math.min(ground.across - 2, Math.floor(across));
    const v = down - i, u = across - j;
    const nodes = [[i, j], [i, j + 1], [i + 1, j], [i + 1, j + 1]].map(([a, b]) => ground.places.slice(4 * (a * ground.across + b), 4 * (a * ground.across + b) + 4));
    const between = (four) => (1 - v) * ((1 - u) * four[0] + u * four[1]) + v * ((1 - u) * four[2] + u * four[3]);
    const number = (k) => nodes.some((node) => node[k] === null) ? null : between(nodes.map((node) => node[k]));
    const t = ground.transform;
    const x = t ? t[0] + (col + 0.5) * t[1] + (row + 0.5) * t[2] : number(0);
    const y = t ? t[3] + (col + 0.5) * t[4] + (row + 0.5) * t[5] : number(1);
    if (number(2) === null) return { x, y, longitude: null, latitude: null };
    // longitude and latitude between points of the sphere: there is neither a date line nor a pole between them
    const turn = Math.PI / 180;
    const sphere = nodes.map((node) => {
      const [longitude, latitude] = [node[2] * turn, node[3] * turn];
      return [Math.cos(latitude) * Math.cos(longitude), Math.cos(latitude) * Math.sin(longitude), Math.sin(latitude)];
    });
    const [a, b, c] = [0, 1, 2].map((k) => between(sphere.map((point) => point[k])));
    return { x, y, longitude: Math.atan2(b, a) / turn, latitude: Math.atan2(c, Math.hypot(a, b)) / turn };
  }

  // digits that tell a hundredth of a pixel
  const groundDigits = (() => {
    if (!ground) return 0;
    const a = placeOnGround(0, 0), b = placeOnGround(0, cols > 1 ? 1 : 0), c = placeOnGround(rows > 1 ? 1 : 0, 0);
    const pixel = Math.max(Math.hypot(b.x - a.x, b.y - a.y), Math.hypot(c.x - a.x, c.y - a.y)) || 1;
    return Math.min(12, Math.max(0, 2 - Math.floor(Math.log10(pixel))));
  })();

  // ---- state

  const state = {
    view: bands === 2 ? "rgb" : "grey1", gamma: 1, marks: false, echoes: true, gone: -1, drawing: false,
    scale: 1, left: 0, top: 0, row: -1, col: -1, corner: null, drag: null, patches: [], colours: ["#00a2ff", "#ffb000", "#3ddc84", "#ff5d8f", "#b388ff", "#ffffff"],
  };

  // ---- the picture at full size, and the overlay of invalid pixels

  const full = document.createElement("canvas");
  full.width = Math.max(cols, 1);
  full.height = Math.max(rows, 1);
  const fullPen = full.getContext("2d", { willReadFrequently: false });
  const veil = document.createElement("canvas");

  function paintFull() {
    const list = lists[state.view];
    if (!list || rows * cols === 0) return;
    const shown = new Uint8Array(256);
    for (let v = 0; v < 256; v++) shown[v] = Math.round(255 * Math.pow(v / 255, 1 / state.gamma));
    const strip = Math.max(1, Math.floor((1 << 20) / cols));
    for (let row = 0; row < rows; row += strip) {
      const height = Math.min(strip, rows - row);
      const image = fullPen.createImageData(cols, height);
      const to = image.data;
      const first = row * cols;
      for (let i = 0; i < height * cols; i++) {
        if (state.view === "rgb") {
          const at = 3 * (first + i);
          to[4 * i] = shown[list[at]]; to[4 * i + 1] = shown[list[at + 1]]; to[4 * i + 2] = shown[list[at + 2]];
        } else {
          const v = shown[list[first + i]];
          to[4 * i] = v; to[4 * i + 1] = v; to[4 * i + 2] = v;
        }
        to[4 * i + 3] = 255;
      }
      fullPen.putImageData(image, 0, row);
    }
    draw();
  }

  function marksOfView(i) {
    if (state.view === "grey1") return lists.marks1[i];
    if (state.view === "grey2") return lists.marks2[i];
    return lists.marks1[i] & lists.marks2[i];
  }

  function paintVeil() {
    veil.width = full.width; veil.height = full.height;
    const veilPen = veil.getContext("2d");
    const image = veilPen.createImageData(veil.width, veil.height);
    for (let i = 0; i < rows * cols; i++) {
      if (marksOfView(i) === 0) {
        image.data[4 * i] = 255; image.data[4 * i + 1] = 0; image.data[4 * i + 2] = 120; image.data[4 * i + 3] = 130;
      }
    }
    veilPen.putImageData(image, 0, 0);
  }

  // ---- drawing

  function resize() {
    const box = screen.getBoundingClientRect();
    const dots = window.devicePixelRatio || 1;
    screen.width = Math.max(1, Math.round(box.width * dots));
    screen.height = Math.max(1, Math.round(box.height * dots));
  }

  function fit() {
    state.scale = Math.min(screen.width / full.width, screen.height / full.height);
    state.left = (screen.width - full.width * state.scale) / 2;
    state.top = (screen.height - full.height * state.scale) / 2;
    draw();
  }

  function draw() {
    pen.setTransform(1, 0, 0, 1, 0, 0);
    pen.fillStyle = "#000";
    pen.fillRect(0, 0, screen.width, screen.height);
    pen.imageSmoothingEnabled = state.scale < 1;
    pen.setTransform(state.scale, 0, 0, state.scale, state.left, state.top);
    if (lists[state.view]) pen.drawImage(full, 0, 0);
    if (state.marks && lists.marks1) pen.drawImage(veil, 0, 0);
    pen.setTransform(1, 0, 0, 1, 0, 0);
    if (state.echoes) rings();
    state.patches.forEach((patch, k) => outline(patch, state.colours[k % state.colours.length], String(k + 1)));
    if (state.drag && state.drag.patch) outline(state.drag.patch, "#ffffff", "");
    if (state.corner) outline(between(state.corner, state), "#ffffff", "");
    if (state.row >= 0) {
      const x = state.left + (state.col + 0.5) * state.scale, y = state.top + (state.row + 0.5) * state.scale;
      pen.strokeStyle = "#ffffff"; pen.lineWidth = 3; cross(x, y);
      pen.strokeStyle = "#000000"; pen.lineWidth = 1; cross(x, y);
    }
  }

  function cross(x, y) {
    const r = Math.max(8, state.scale);
    pen.beginPath();
    pen.moveTo(x - r - 6, y); pen.lineTo(x - r / 2, y); pen.moveTo(x + r / 2, y); pen.lineTo(x + r + 6, y);
    pen.moveTo(x, y - r - 6); pen.lineTo(x, y - r / 2); pen.moveTo(x, y + r / 2); pen.lineTo(x, y + r + 6);
    pen.stroke();
  }

  // the bands of the view whose strongest echo is known, from 0 on
  function shownBands() {
    return scene.strongest.flatMap((spot, k) => spot && (state.view === "rgb" || state.view === `grey${k + 1}`) ? [k] : []);
  }

  // a ring round the strongest echo of each band, wide enough to leave the pixel free; then the bands' numbers, the first's to the left
  function rings() {
    const shown = shownBands().map((k) => {
      const { row, col } = scene.strongest[k];
      return { k, x: state.left + (col + 0.5) * state.scale, y: state.top + (row + 0.5) * state.scale, r: Math.max(12, state.scale) + 5 * k };
    });
    for (const { k, x, y, r } of shown) {
      for (const [width, colour] of [[5, "#000"], [2, state.colours[k]]]) {
        pen.lineWidth = width; pen.strokeStyle = colour;
        pen.beginPath(); pen.arc(x, y, r, 0, 2 * Math.PI); pen.stroke();
      }
    }
    for (const { k, x, y, r } of shown) label(`B${k + 1}`, state.colours[k], k === 0 ? x - r - 28 : x + r + 5, y + 6);
  }

  function label(text, colour, x, y) {
    pen.font = "bold 16px sans-serif"; pen.lineWidth = 3; pen.strokeStyle = "#000"; pen.strokeText(text, x, y);
    pen.fillStyle = colour; pen.fillText(text, x, y);
  }

  function outline(patch, colour, name) {
    const x = state.left + patch.col0 * state.scale, y = state.top + patch.row0 * state.scale;
    const w = (patch.col1 - patch.col0 + 1) * state.scale, h = (patch.row1 - patch.row0 + 1) * state.scale;
    pen.lineWidth = 4; pen.strokeStyle = "#000"; pen.strokeRect(x, y, w, h);
    pen.lineWidth = 2; pen.strokeStyle = colour; pen.strokeRect(x, y, w, h);
    if (name) label(name, colour, x + 4, y + 18);
  }

  // ---- the values under the cursor

  const signed = (db) => Object.is(db, -0) ? "-0" : String(db);

  function values(row, col) {
    const i = row * cols + col;
    const at = { row, col };
    for (let band = 1; band <= bands; band++) {
      at[`db${band}`] = decibel(band, row, col);
      at[`grey${band}`] = lists[`grey${band}`] ? lists[`grey${band}`][i] : null;
      at[`mark${band}`] = lists[`marks${band}`] ? lists[`marks${band}`][i] : null;
    }
    if (bands === 2) at.rgb = lists.rgb ? [lists.rgb[3 * i], lists.rgb[3 * i + 1], lists.rgb[3 * i + 2]] : null;
    return at;
  }

  function showReadout() {
    const out = $("readout");
    out.textContent = "";
    const line = (name, value) => {
      const dt = document.createElement("dt"), dd = document.createElement("dd");
      dt.textContent = name; dd.textContent = value === null || value === undefined ? "…" : value; dd.id = `at-${name.toLowerCase().replace(/ /g, "-")}`;
      out.append(dt, dd);
    };
    if (state.row < 0) { line("Row", "–"); line("Column", "–"); return; }
    const at = values(state.row, state.col);
    line("Row", at.row);
    line("Column", at.col);
    if (scene.crop) line("In the file", `${at.row + scene.crop[0]}, ${at.col + scene.crop[1]}`);
    if (ground) {
      const digits = (value, count) => value === null ? "–" : value.toFixed(count);
      const place = placeOnGround(at.row, at.col);
      line("X", digits(place.x, groundDigits));
      line("Y", digits(place.y, groundDigits));
      line("Longitude", digits(place.longitude, 6));
      line("Latitude", digits(place.latitude, 6));
    }
    for (let band = 1; band <= bands; band++) {
      line(`Decibel ${band}`, at[`mark${band}`] === 0 ? `invalid (${at[`db${band}`]})` : at[`db${band}`] === null ? null : signed(at[`db${band}`]));
      line(`Grey ${band}`, at[`grey${band}`]);
    }
    if (bands === 2) line("Red green blue", at.rgb ? at.rgb.join(" ") : null);
  }

  function moveTo(row, col) {
    state.row = Math.min(rows - 1, Math.max(0, row));
    state.col = Math.min(cols - 1, Math.max(0, col));
    if (rows * cols === 0) state.row = -1;
    showReadout();
    draw();
  }

  function keepInView() {
    const x = state.left + (state.col + 0.5) * state.scale, y = state.top + (state.row + 0.5) * state.scale;
    if (x < 0) state.left -= x; else if (x > screen.width) state.left -= x - screen.width;
    if (y < 0) state.top -= y; else if (y > screen.height) state.top -= y - screen.height;
  }

  // ---- the strongest echoes

  function listStrongest() {
    const body = $("strongest").tBodies[0];
    scene.strongest.forEach((spot, k) => {
      const tr = body.insertRow();
      const inFile = (at, k) => scene.crop ? `${at} (${at + scene.crop[k]} in the file)` : at;
      const cells = spot ? [k + 1, inFile(spot.row, 0), inFile(spot.col, 1), signed(spot.db)] : [k + 1, "–", "–", "no valid pixel"];
      cells.forEach((text) => { tr.insertCell().textContent = text; });
      tr.cells[0].style.boxShadow = `inset 4px 0 ${state.colours[k]}`;
      const last = tr.insertCell();
      if (!spot) return;
      const button = document.createElement("button");
      button.textContent = "Show"; button.setAttribute("aria-label", `Show the strongest echo of band ${k + 1}`); button.setAttribute("aria-keyshortcuts", "b");
      button.onclick = () => goToEcho(k);
      last.append(button);
    });
  }

  // the cursor at the echo, and the echo in the middle of the canvas if it was outside, the canvas on the screen
  function goToEcho(k) {
    const { row, col } = scene.strongest[k];
    const x = (col + 0.5) * state.scale, y = (row + 0.5) * state.scale;
    const seen = state.left + x >= 0 && state.left + x <= screen.width && state.top + y >= 0 && state.top + y <= screen.height;
    if (!seen) { state.left = screen.width / 2 - x; state.top = screen.height / 2 - y; }
    state.gone = k;
    screen.scrollIntoView({ block: "nearest" });
    moveTo(row, col);
  }

  function nextEcho() {
    const known = shownBands();
    if (known.length > 0) goToEcho(known.find((k) => k > state.gone) ?? known[0]);
  }

  function toggleEchoes() {
    state.echoes = !state.echoes;
    $("echoes").setAttribute("aria-pressed", String(state.echoes));
    draw();
  }

  // ---- patches

  function between(a, b) {
    return { row0: Math.min(a.row, b.row), row1: Math.max(a.row, b.row), col0: Math.min(a.col, b.col), col1: Math.max(a.col, b.col) };
  }

  function figures(patch, band) {
    const greys = lists[`grey${band}`], marks = lists[`marks${band}`];
    let valid = 0, sum = 0, least = 256, greatest = -1;
    for (let row = patch.row0; row <= patch.row1; row++) {
      for (let i = row * cols + patch.col0; i <= row * cols + patch.col1; i++) {
        if (marks[i] === 0) continue;
        const v = greys[i];
        valid++; sum += v;
        if (v < least) least = v;
        if (v > greatest) greatest = v;
      }
    }
    return { valid, mean: valid ? sum / valid : null, least: valid ? least : null, greatest: valid ? greatest : null };
  }

  function addPatch(patch) {
    state.patches.push(patch);
    listPatches();
    draw();
  }

  function listPatches() {
    const body = $("patches").tBodies[0];
    body.textContent = "";
    state.patches.forEach((patch, k) => {
      for (let band = 1; band <= bands; band++) {
        const f = figures(patch, band);
        const tr = body.insertRow();
        tr.dataset.patch = k; tr.dataset.band = band;
        const cells = [k + 1, `${patch.row0}–${patch.row1}`, `${patch.col0}–${patch.col1}`, band, f.valid, f.mean === null ? "–" : f.mean.toFixed(2), f.least ?? "–", f.greatest ?? "–"];
        cells.forEach((text) => { tr.insertCell().textContent = text; });
        tr.cells[0].style.color = state.colours[k % state.colours.length];
        const last = tr.insertCell();
        if (band === 1) {
          const button = document.createElement("button");
          button.textContent = "×"; button.setAttribute("aria-label", `Remove patch ${k + 1}`);
          button.onclick = () => { state.patches.splice(k, 1); listPatches(); draw(); };
          last.append(button);
        }
      }
    });
  }

  // ---- statistics and histograms

  function showStatistics() {
    const body = $("statistics").tBodies[0];
    const head = body.insertRow();
    head.innerHTML = "<th></th>" + scene.statistics.map((_, k) => `<th>Band ${k + 1}</th>`).join("");
    scene.statisticNames.forEach((name, i) => {
      const tr = body.insertRow();
      tr.insertCell().textContent = name;
      scene.statistics.forEach((list) => { tr.insertCell().textContent = list[i]; });
    });
  }

  function showOrigin() {
    const list = $("origin");
    if (ground) scene.origin.push(["Reference system of x and y", ground.crs || "not named in the file"]);
    if (ground && ground.off > 0.01) scene.origin.push(["Longitude and latitude", `within ${ground.off.toPrecision(2)} pixels`]);
    for (const [name, words] of scene.origin) {
      const dt = document.createElement("dt"), dd = document.createElement("dd");
      dt.textContent = name.replace(/^quicklook_/, ""); dd.textContent = words;
      list.append(dt, dd);
    }
  }

  // The engine's counts, eight bins to a column, and below them a tick at each percentile that it has placed. Each tick's name has a line of
  // its own, so that two in one bin can be read.
  function showHistograms() {
    const columns = 512, foot = 110, tickFoot = 120;
    const place = $("histograms");
    place.textContent = "";
    const style = getComputedStyle(document.documentElement);
    scene.curves.forEach((h, k) => {
      const canvas = document.createElement("canvas");
      canvas.width = columns; canvas.height = tickFoot;
      canvas.setAttribute("role", "img");
      const g = canvas.getContext("2d");
      const bars = new Array(columns).fill(0);
      h.counts.forEach((count, bin) => { bars[Math.floor(bin * columns / h.counts.length)] += count; });
      const most = Math.max(1, ...bars);
      g.fillStyle = style.getPropertyValue("--soft");
      bars.forEach((count, column) => {
        const height = count === 0 ? 0 : Math.max(1, 100 * Math.sqrt(count / most));
        g.fillRect(column, foot - height, 1, height);
      });
      const x = (db) => h.max > h.min ? columns * (db - h.min) / (h.max - h.min) : 0;
      const upright = (at, top, bottom) => g.fillRect(Math.min(columns - 2, Math.max(0, Math.round(at) - 1)), top, 2, bottom - top);
      const window_ = scene.windows[k];
      const caption = document.createElement("p");
      if (window_) {
        g.fillStyle = style.getPropertyValue("--mark");
        for (const end of [window_.low, window_.high]) upright(x(end), 0, foot);
        caption.textContent = `Band ${k + 1}: ${h.min.toFixed(2)} to ${h.max.toFixed(2)} dB, heights by square root; window from ${window_.low.toFixed(2)} to ${window_.high.toFixed(2)} dB, gamma ${window_.gamma.toFixed(1)}`;
      } else {
        caption.textContent = `Band ${k + 1}: no valid pixel`;
      }
      const names = document.createElement("div"), ticks = document.createElement("ul");
      names.className = "ticks";
      names.setAttribute("aria-hidden", "true");
      const valid = scene.statistics[k][0];
      g.fillStyle = style.getPropertyValue("--accent");
      for (const tick of valid === 0 ? [] : h.ticks) {
        const share = (tick.bin + 0.5) / h.counts.length;
        upright(share * columns, foot - 8, tickFoot);
        const name = document.createElement("div"), word = document.createElement("span"), line = document.createElement("li");
        word.textContent = tick.name;
        word.style.left = `${100 * share}%`;
        word.style.transform = `translateX(${-100 * share}%)`;
        name.append(word);
        names.append(name);
        line.textContent = `${tick.name}: ${tick.db.toFixed(2)} dB, bin ${tick.bin} of ${h.counts.length}, ${(100 * tick.below / valid).toFixed(2)} % of valid pixels in the bins below`;
        ticks.append(line);
      }
      canvas.setAttribute("aria-label", [caption, ...ticks.children].map((element) => element.textContent).join("; "));
      place.append(canvas, names, caption, ticks);
    });
  }

  // ---- commands

  function setView(view) {
    if (!lists[view]) return;
    state.view = view;
    document.querySelectorAll("[data-view]").forEach((b) => b.setAttribute("aria-pressed", String(b.dataset.view === view)));
    if (state.marks) paintVeil();
    paintFull();
  }

  function setGamma(gamma) {
    state.gamma = Math.min(2.5, Math.max(0.4, gamma));
    $("gamma").value = state.gamma;
    $("gamma-value").textContent = state.gamma.toFixed(2);
    paintFull();
  }

  function toggleMarks() {
    if (!lists.marks1) return;
    state.marks = !state.marks;
    $("marks").setAttribute("aria-pressed", String(state.marks));
    if (state.marks) paintVeil();
    draw();
  }

  function setDrawing(on) {
    state.drawing = on;
    $("patch").setAttribute("aria-pressed", String(on));
  }

  function zoom(factor, x = screen.width / 2, y = screen.height / 2) {
    const scale = Math.min(64, Math.max(Math.min(screen.width / full.width, screen.height / full.height) / 4, state.scale * factor));
    state.left = x - (x - state.left) * scale / state.scale;
    state.top = y - (y - state.top) * scale / state.scale;
    state.scale = scale;
    draw();
  }

  function save() {
    screen.toBlob((blob) => {
      const link = document.createElement("a");
      link.href = URL.createObjectURL(blob);
      const name = scene.title.replace(/[^\w-]+/g, "-").replace(/^-+|-+$/g, "") || "quicklook";
      link.download = `${name}-${state.view}.png`;
      link.click();
      setTimeout(() => URL.revokeObjectURL(link.href), 60000);
    });
  }

  function theme(night) {
    document.documentElement.classList.toggle("night", night);
    $("theme").setAttribute("aria-pressed", String(night));
    showHistograms();
  }

  function keyboardPatch() {
    if (state.row < 0) { setDrawing(!state.drawing); return; }
    if (state.corner) {
      addPatch(between(state.corner, state));
      state.corner = null;
      setDrawing(false);
      draw();
    } else {
      state.corner = { row: state.row, col: state.col };
      setDrawing(true);
      draw();
    }
  }

  // ---- events

  const point = (e) => {
    const box = screen.getBoundingClientRect();
    return { x: (e.clientX - box.left) * screen.width / box.width, y: (e.clientY - box.top) * screen.height / box.height };
  };
  const place = (p) => ({ row: Math.floor((p.y - state.top) / state.scale), col: Math.floor((p.x - state.left) / state.scale) });
  const inside = (at) => at.row >= 0 && at.row < rows && at.col >= 0 && at.col < cols;
  const held = (at) => ({ row: Math.min(rows - 1, Math.max(0, at.row)), col: Math.min(cols - 1, Math.max(0, at.col)) });
  const touches = new Map();

  screen.addEventListener("pointerdown", (e) => {
    screen.focus();
    screen.setPointerCapture(e.pointerId);
    touches.set(e.pointerId, point(e));
    const p = point(e);
    if (touches.size === 2) { state.drag = null; return; }
    state.drag = state.drawing && lists.marks1 && inside(place(p)) ? { from: place(p), patch: null } : { x: p.x, y: p.y, left: state.left, top: state.top, patch: null };
  });
  screen.addEventListener("pointermove", (e) => {
    const p = point(e);
    if (touches.size === 2 && touches.has(e.pointerId)) {
      const [a, b] = [...touches.entries()];
      const other = a[0] === e.pointerId ? b[1] : a[1];
      const before = touches.get(e.pointerId);
      const grown = Math.hypot(p.x - other.x, p.y - other.y) / Math.max(1, Math.hypot(before.x - other.x, before.y - other.y));
      touches.set(e.pointerId, p);
      zoom(grown, (p.x + other.x) / 2, (p.y + other.y) / 2);
      return;
    }
    if (touches.has(e.pointerId)) touches.set(e.pointerId, p);
    if (state.drag && state.drag.from) {
      state.drag.patch = between(state.drag.from, held(place(p)));
    } else if (state.drag) {
      state.left = state.drag.left + p.x - state.drag.x;
      state.top = state.drag.top + p.y - state.drag.y;
    }
    const at = place(p);
    if (inside(at)) moveTo(at.row, at.col); else draw();
  });
  const ended = (e) => {
    touches.delete(e.pointerId);
    if (state.drag && state.drag.from && e.type === "pointerup") {
      addPatch(between(state.drag.from, held(place(point(e)))));
      setDrawing(false);
    }
    state.drag = null;
    draw();
  };
  screen.addEventListener("pointerup", ended);
  screen.addEventListener("pointercancel", ended);
  screen.addEventListener("wheel", (e) => {
    e.preventDefault();
    const p = point(e);
    zoom(Math.exp(-e.deltaY * 0.0015), p.x, p.y);
  }, { passive: false });

  document.addEventListener("keydown", (e) => {
    if (e.ctrlKey || e.metaKey || e.target.matches("input")) return;
    const far = e.shiftKey ? 10 : 1;
    const pan = Math.round(screen.width / 10);
    const moves = { ArrowUp: [-far, 0], ArrowDown: [far, 0], ArrowLeft: [0, -far], ArrowRight: [0, far] };
    const pans = { w: [0, pan], s: [0, -pan], a: [pan, 0], d: [-pan, 0] };
    if (e.altKey && pans[e.key]) {
      state.left += pans[e.key][0]; state.top += pans[e.key][1]; draw();
    } else if (moves[e.key]) {
      if (state.row < 0) moveTo(Math.floor(rows / 2), Math.floor(cols / 2));
      else moveTo(state.row + moves[e.key][0], state.col + moves[e.key][1]);
      keepInView(); draw();
    } else {
      const keys = {
        1: () => setView("rgb"), 2: () => setView("grey1"), 3: () => setView("grey2"), m: toggleMarks, e: toggleEchoes, b: nextEcho, p: keyboardPatch,
        "+": () => zoom(1.25), "=": () => zoom(1.25), "-": () => zoom(0.8), 0: fit, s: save, t: () => theme(!document.documentElement.classList.contains("night")),
        "[": () => setGamma(state.gamma - 0.05), "]": () => setGamma(state.gamma + 0.05), Escape: () => { state.corner = null; setDrawing(false); draw(); },
      };
      if (!keys[e.key] || e.altKey) return;
      keys[e.key]();
    }
    e.preventDefault();
  });
  document.querySelectorAll("[data-view]").forEach((b) => {
    b.disabled = true;
    b.hidden = bands === 1 && b.dataset.view !== "grey1";
    b.onclick = () => setView(b.dataset.view);
  });
  $("marks").onclick = toggleMarks;
  $("echoes").onclick = toggleEchoes;
  $("patch").onclick = () => setDrawing(!state.drawing);
  $("in").onclick = () => zoom(1.25);
  $("out").onclick = () => zoom(0.8);
  $("fit").onclick = fit;
  $("save").onclick = save;
  $("theme").onclick = () => theme(!document.documentElement.classList.contains("night"));
  $("gamma").oninput = () => setGamma(Number($("gamma").value));
  // the stage changes with the window, and with the lines of the header above it
  const resized = () => { resize(); fit(); };
  window.addEventListener("resize", resized);
  new ResizeObserver(resized).observe($("stage"));

  // ---- start: the first view as soon as its list is there, the others once the whole file is

  async function ready(name, width) {
    await readList(name, width);
    const button = document.querySelector(`[data-view="${name}"]`);
    if (button) button.disabled = false;
  }

  resize();
  fit();
  showReadout();
  listStrongest();
  showStatistics();
  showOrigin();
  theme(window.matchMedia("(prefers-color-scheme: dark)").matches);
  $("about").textContent = scene.about;
  const first = state.view;
  const begun = ready(first, first === "rgb" ? 3 : 1).then(() => {
    setView(first);
    document.documentElement.dataset.first = Math.round(performance.now());
    $("loading").textContent = "Reading the rest of the scene";
  });

  return {
    complete: async () => {
      await begun;
      for (const name of ["rgb", "grey1", "grey2", "marks1", "marks2"]) {
        if (!lists[name] && $(`${name}-0`)) await ready(name, name === "rgb" ? 3 : 1);
        else if (!lists[name] && rows * cols === 0) lists[name] = new Uint8Array(0);
      }
      complete = true;
      $("loading").remove();
      document.documentElement.dataset.complete = Math.round(performance.now());
      if (state.row >= 0) showReadout();
    },
    values, figures, placeOnGround, state, moveTo, setView, setGamma,
    decibels: async (band, row) => { decibelBlock(band, Math.floor(row / scene.blockRows)); await blocks[`db${band}-${Math.floor(row / scene.blockRows)}`]; },
    isComplete: () => complete,
  };
})();
