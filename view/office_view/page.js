"use strict";
(() => {
  const data = JSON.parse(document.getElementById("data").textContent);
  const byId = (id) => document.getElementById(id);
  const SVG = "http://www.w3.org/2000/svg";
  const MOST_ROWS = 300, FEW_NODES = 60, MOST_SYMBOLS = 4;
  /* Letters, lines of them, and the air around a label, in pixels. */
  const SIZE = 13, LINE = 16, AIR = 3, LETTERS_A_LINE = 32;
  const SCALES = [1.25, 1.6, 2, 2.6, 3.4], MOST_WIDE = 2800;
  const rows = [...document.querySelectorAll("tr[data-carrier]")];
  let texts = null;
  const search = byId("search"), carrier = byId("carrier"), status = byId("status"), found = byId("found");
  const version = byId("version"), saying = byId("saying"), choice = byId("choice"), clear = byId("clear");
  let chosen = null, nobody = "";

  /* Everything that is shown is text of its own node, never markup. */
  const make = (name, attributes, text) => {
    const made = document.createElementNS(SVG, name);
    for (const [key, value] of Object.entries(attributes || {})) made.setAttribute(key, value);
    if (text !== undefined) made.textContent = text;
    return made;
  };
  const cell = (row, name, text, label) => {
    const made = document.createElement(name);
    made.textContent = text;
    made.setAttribute("role", name === "th" ? "rowheader" : "cell");
    if (name === "th") made.scope = "row";
    if (label) made.dataset.label = label;
    row.append(made);
  };
  const digits = new Intl.NumberFormat("en-US").format;
  const counted = (count, word) => `${digits(count)} ${word}${count === 1 ? "" : "s"}`;

  /* What is looked for: a permit or an answer by its number, numbers as they stand, and words or parts of them. */
  const testsOf = (text) => {
    const tests = [];
    const rest = text.toLowerCase().replace(/\b(permit|answer|posting)\s*(?:#|no\.?)?\s*(\d{1,10})(?![\w-])/g, (_, kind, number) => {
      const name = `${kind}-${Number(number)}`, words = new RegExp(`\\b${kind} ${Number(number)}(?![\\d,])`);
      tests.push(kind === "posting" ? (row, it) => words.test(it) : (row) => row.id === name);
      return " ";
    });
    for (const word of rest.split(/\s+/).filter(Boolean)) {
      const whole = /^\d+$/.test(word) ? new RegExp(`(^|[^\\d,.])${word}(?![\\d,.]*\\d)`) : null;
      tests.push((row, it) => (whole ? whole.test(it) : it.includes(word)));
    }
    return tests;
  };

  /* Which rows are shown: those of which all holds that is looked for, of the carrier and the state that are chosen. */
  const filter = () => {
    const tests = testsOf(search.value), active = tests.length > 0 || carrier.value !== "" || status.value !== "";
    let permits = 0, answers = 0;
    if (tests.length && !texts) texts = rows.map((row) => row.textContent.toLowerCase());
    rows.forEach((row, at) => {
      const shown = (!carrier.value || row.dataset.carrier === carrier.value)
        && (!status.value || row.dataset.state === status.value) && tests.every((test) => test(row, texts[at]));
      if (row.hidden === shown) row.hidden = !shown;
      if (shown && row.id.startsWith("permit-")) permits += 1;
      else if (shown) answers += 1;
    });
    byId("all").hidden = nobody !== "";
    clear.hidden = !active && !nobody;
    found.parentElement.classList.toggle("screen", !active && !nobody);
    found.textContent = nobody || `${counted(permits, "permit")} and ${counted(answers, "other answer")} shown`;
  };

  /* What holds on each segment at a version: what the file says, and then each posting up to it. */
  const postedAt = (at) => {
    const posted = new Map();
    const of = (segment) => {
      if (!posted.has(segment)) posted.set(segment, { values: new Map(), ratings: new Map() });
      return posted.get(segment);
    };
    data.spans.forEach(([, segment, , rating], span) => of(segment).ratings.set(span, rating));
    for (const [segment, what, value] of data.limits) of(segment).values.set(what, value);
    for (const [item, what, value] of data.postings.slice(0, at)) {
      if (what === "rating") of(data.spans[item][1]).ratings.set(item, value);
      else of(item).values.set(what, value);
    }
    return posted;
  };
  const isClosed = (posted, segment) => posted.get(segment)?.values.get("closed") === 1;
  const isRestricted = (posted, segment) => {
    const here = posted.get(segment);
    return Boolean(here) && ([...here.values].some(([what, value]) => what !== "closed" && value !== data.most[what])
      || [...here.ratings.values()].some((rating) => rating !== data.most.rating));
  };
  const valueText = (what, value) => (value === data.most[what] ? "no limit" : digits(value) + data.units[what]);
  const postedText = (posted, segment) => {
    const here = posted.get(segment), parts = [];
    if (!here) return "no limit";
    for (const [what, value] of here.values) {
      if (what === "closed") { if (value) parts.push("closed"); }
      else if (value !== data.most[what]) parts.push(`${what === "allowance" ? "axle groups" : what} ${valueText(what, value)}`);
    }
    for (const [span, rating] of here.ratings) {
      parts.push(`bridge ${data.spans[span][0]} of ${digits(data.spans[span][2])} in: ${valueText("rating", rating)}`);
    }
    return parts.join(", ") || "no limit";
  };

  /* What the drawing shows: what is posted, the chosen route, what fails there, and what is reached. What fails and what is
     reached is true at the version of the answer alone. */
  const stateNow = () => {
    const at = Number(version.value), here = chosen && chosen.version === at;
    const cut = chosen && chosen.cut !== undefined && (here || chosen.always) ? data.cuts[chosen.cut] : [];
    const fails = here && chosen.fails ? chosen.fails : null, bridge = fails && fails[1] >= 0 ? `${data.spans[fails[1]][0]}: ` : "";
    return { posted: postedAt(at), at, here, route: new Set(chosen ? chosen.routes.flat() : []), reached: new Set(cut), fails,
      reason: fails ? bridge + (byId(chosen.id).querySelector(".why")?.textContent || "closed") : "" };
  };
  const failsAt = (state, segment) => state.fails !== null && state.fails[0] === segment;
  const leadsOut = (state, segment) => state.reached.has(data.segments[segment][1]) && !state.reached.has(data.segments[segment][2]);
  const classesOf = (state, segment) => [
    isClosed(state.posted, segment) ? "closed" : isRestricted(state.posted, segment) ? "restricted" : "",
    leadsOut(state, segment) ? "cut" : "", state.route.has(segment) ? "route" : "", failsAt(state, segment) ? "fails" : "",
  ].filter(Boolean).join(" ");

  /* The width of a text, as it will be drawn. */
  const pen = document.createElement("canvas").getContext("2d"), widths = new Map();
  const widthOf = (text) => {
    if (!widths.has(text)) {
      pen.font = `700 ${SIZE}px system-ui, "DejaVu Sans", sans-serif`;
      widths.set(text, pen.measureText(text).width);
    }
    return widths.get(text);
  };
  const folded = (text) => {
    const lines = [""];
    for (const word of text.split(" ")) {
      const last = lines[lines.length - 1];
      if (last && last.length + word.length >= LETTERS_A_LINE) lines.push(word);
      else lines[lines.length - 1] = last ? `${last} ${word}` : word;
    }
    return lines;
  };

  /* What is drawn already, in cells, so that a label finds room beside it. A box is its left, top, right and bottom. */
  const makeRoom = () => {
    const cells = new Map(), CELL = 32;
    const some = (box, test) => {
      for (let x = Math.floor(box[0] / CELL); x <= Math.floor(box[2] / CELL); x += 1) {
        for (let y = Math.floor(box[1] / CELL); y <= Math.floor(box[3] / CELL); y += 1) if (test(x * 65536 + y)) return true;
      }
      return false;
    };
    const meets = (box) => (it) => it[0] < box[2] && box[0] < it[2] && it[1] < box[3] && box[1] < it[3];
    return {
      add: (box) => { some(box, (key) => { if (!cells.has(key)) cells.set(key, []); cells.get(key).push(box); return false; }); },
      isFree: (box) => !some(box, (key) => (cells.get(key) || []).some(meets(box))),
    };
  };
  /* What is to be drawn, below and above, is made into elements when the drawing is chosen. What is to be seen first, where not
     all can be, is where the trip begins, or what fails: along both axes the mark, and the ends of the reason. */
  const makeScene = (few) => ({ few, room: makeRoom(), below: [], above: [], labels: [], box: [0, 0, 0, 0], unnamed: 0, seen: null });
  const claim = (scene, box) => {
    scene.room.add(box);
    scene.box = [Math.min(scene.box[0], box[0]), Math.min(scene.box[1], box[1]), Math.max(scene.box[2], box[2]), Math.max(scene.box[3], box[3])];
  };
  const around = ([x, y], half) => [x - half, y - half, x + half, y + half];

  /* A curve by its four points, as a place and a direction at each part of its way. */
  const curveOf = (a, b, c, d) => {
    const at = (t) => {
      const s = 1 - t, p = s * s * s, q = 3 * s * s * t, r = 3 * s * t * t, w = t * t * t;
      return [p * a[0] + q * b[0] + r * c[0] + w * d[0], p * a[1] + q * b[1] + r * c[1] + w * d[1]];
    };
    const along = (t) => {
      const [x, y] = at(Math.max(0, t - 0.02)), [u, v] = at(Math.min(1, t + 0.02)), length = Math.hypot(u - x, v - y) || 1;
      return [(u - x) / length, (v - y) / length];
    };
    return { at, along, text: `M${a}C${b} ${c} ${d}`, length: Math.hypot(d[0] - a[0], d[1] - a[1]) || 120 };
  };

  /* Whether nothing lies between a place and its name, which would be taken for the name of that. */
  const isOpen = (scene, label, [x, y, u, v], gap) => {
    for (let way = label.clear; way < gap; way += 4) if (!scene.room.isFree(around([x + way * u, y + way * v], 3))) return false;
    return true;
  };
  /* The box of a label: about a place in some directions, nearer ones first; one that lets the drawing be as wide as its frame
     before one that does not. */
  const boxOf = (scene, label, most) => {
    const wide = Math.max(...label.lines.map(widthOf)) + 2 * AIR, high = label.lines.length * LINE + (label.reason ? 2 * AIR : 0);
    let other = null;
    for (const gap of label.gaps) {
      for (const [x, y, u, v] of label.anchors) {
        const reach = gap + Math.abs(u) * wide / 2 + Math.abs(v) * high / 2, left = x + u * reach - wide / 2, top = y + v * reach - high / 2;
        const box = [left, top, left + wide, top + high];
        const isWithin = Math.max(scene.box[2], box[2]) - Math.min(scene.box[0], left) <= most;
        if ((isWithin || !other) && scene.room.isFree(box) && isOpen(scene, label, [x, y, u, v], gap)) {
          if (isWithin) return box;
          other = box;
        }
      }
    }
    return other;
  };
  const COMPASS = [...Array(16).keys()].map((it) => [Math.cos((it - 2) * Math.PI / 8), Math.sin((it - 2) * Math.PI / 8)]);
  const about = ([x, y]) => COMPASS.map(([u, v]) => [x, y, u, v]);
  const beside = (curve, parts) => parts.flatMap((part) => {
    const [x, y] = curve.at(part), [u, v] = curve.along(part);
    return [[x, y, -v, u], [x, y, v, -u]];
  });

  const drawLabel = (scene, label, box) => {
    claim(scene, box);
    if (label.reason) {
      const [x, y] = label.from, to = [Math.max(box[0], Math.min(x, box[2])), Math.max(box[1], Math.min(y, box[3]))];
      scene.above.unshift(() => make("path", { class: "leader", d: `M${x} ${y}L${to}` }));
      for (let part = 0; part <= 1; part += 0.04) claim(scene, around([x + part * (to[0] - x), y + part * (to[1] - y)], 3));
      scene.seen = [[x, box[0], box[2]], [y, box[1], box[3]]];
      scene.above.push(() => make("rect", { class: "reason", x: box[0], y: box[1], width: box[2] - box[0], height: box[3] - box[1], rx: 3 }));
    }
    scene.above.push(() => {
      const text = make("text", { class: label.kind, x: box[0] + AIR, y: box[1] + SIZE + (label.reason ? AIR : 0) });
      label.lines.forEach((line, at) => text.append(make("tspan", { x: box[0] + AIR, dy: at ? LINE : 0 }, line)));
      return text;
    });
  };
  /* Each label goes where it meets nothing. One that finds no such place is left out, and the drawing says so. */
  const placeLabels = (scene) => {
    const most = byId("frame").clientWidth - 16;
    for (const label of scene.labels.sort((a, b) => a.rank - b.rank)) {
      const box = boxOf(scene, label, most);
      if (box) drawLabel(scene, label, box);
      else scene.unnamed += 1;
    }
  };

  const addArrow = (scene, curve, classes, clear, strong) => {
    const [x, y] = curve.at(1);
    let t = 1;
    while (t > 0.5 && Math.hypot(curve.at(t)[0] - x, curve.at(t)[1] - y) < clear) t -= 0.01;
    const tip = curve.at(t), [u, v] = curve.along(t), long = strong ? 13 : 9, half = strong ? 6 : 4;
    const back = [tip[0] - u * long, tip[1] - v * long];
    scene.below.push(() => make("polygon", { class: `head ${classes}`.trim(),
      points: `${tip} ${back[0] - v * half},${back[1] + u * half} ${back[0] + v * half},${back[1] - u * half}` }));
    claim(scene, around(back, half));
  };
  /* A mark of what fails, and its reason. */
  const addAlarm = (scene, place, state) => {
    scene.above.push(() => make("rect", { class: "alarm", x: place[0] - 6, y: place[1] - 8, width: 12, height: 16 }),
      () => make("text", { class: "alarm-text", x: place[0], y: place[1] + 5 }, "!"));
    claim(scene, around(place, 9));
    scene.labels.push({ rank: -1, kind: "reason-text", lines: folded(state.reason), reason: true, from: place, anchors: about(place), clear: Infinity,
      gaps: [14, 24, 36, 52, 72, 96, 124, 160, 220, 300] });
  };
  const addBridges = (scene, segment, curve, state, named) => {
    const spans = [...(state.posted.get(segment)?.ratings.keys() || [])], few = spans.length <= MOST_SYMBOLS;
    const failing = failsAt(state, segment) ? spans.indexOf(state.fails[1]) : -1;
    (few ? spans : [failing < 0 ? spans[0] : spans[failing]]).forEach((span, at, all) => {
      const part = 0.2 + 0.6 * (at + 1) / (all.length + 1), [x, y] = curve.at(part), [u, v] = curve.along(part);
      const fails = failing >= 0 && span === spans[failing];
      scene.above.push(() => make("path", { class: "bridge" + (fails ? " fails" : ""), d: "M-9 -9L-6 -6H6L9 -9M-9 9L-6 6H6L9 9",
        transform: `translate(${x} ${y}) rotate(${Math.atan2(v, u) * 180 / Math.PI})` }));
      claim(scene, around([x, y], 10));
      if (fails) addAlarm(scene, [x - v * 20, y + u * 20], state);
      if (!named || fails) return;
      const text = few ? data.spans[span][0] : `${spans.length} bridges`;
      scene.labels.push({ rank: 4, kind: "bridge-name", lines: [text], anchors: about([x, y]), clear: 18,
        gaps: [12, 20, 30, 44, 64, 90] });
    });
  };

  /* A segment: its line and its arrowhead, a cross where it is closed, its bridges, a mark where it fails, and its name. */
  const addRoad = (scene, segment, curve, state, id, clear) => {
    const [name, from, to] = data.segments[segment], classes = classesOf(state, segment), strong = /cut|route|fails/.test(classes);
    scene.below.push(() => {
      const path = make("path", { class: `road ${classes}`.trim(), ...id, d: curve.text });
      path.append(make("title", {}, `${name}: ${data.nodes[from]} to ${data.nodes[to]}; ${postedText(state.posted, segment)}`));
      return path;
    });
    const steps = Math.max(4, Math.ceil(curve.length / 7));
    for (let step = 0; step <= steps; step += 1) claim(scene, around(curve.at(step / steps), strong ? 4 : 2));
    addArrow(scene, curve, classes, clear, strong);
    if (isClosed(state.posted, segment)) {
      const [x, y] = curve.at(0.36);
      scene.above.push(() => make("path", { class: "no", d: `M${x - 6} ${y - 6}L${x + 6} ${y + 6}M${x - 6} ${y + 6}L${x + 6} ${y - 6}` }));
      claim(scene, around([x, y], 7));
    }
    addBridges(scene, segment, curve, state, scene.few || state.route.has(segment));
    if (failsAt(state, segment) && state.fails[1] < 0) addAlarm(scene, curve.at(0.62), state);
    if (scene.few || strong) {
      scene.labels.push({ rank: strong ? 1 : 5, kind: "road-name", lines: [name], anchors: beside(curve, [0.5, 0.4, 0.6, 0.3, 0.7, 0.2, 0.8]),
        clear: 10, gaps: [6, 12, 20, 30] });
    }
  };
  const addNode = (scene, node, place, state, named) => {
    const ends = chosen && (chosen.from === node ? "from " : chosen.to === node ? "to " : ""), [x, y] = place;
    const kind = "node" + (state.reached.has(node) ? " reached" : "") + (ends ? " end" : ""), id = named ? { id: `node-${node + 1}` } : {};
    const radius = scene.few || ends ? 6 : 4;
    scene.above.push(() => ends ? make("rect", { class: kind, ...id, x: x - 6, y: y - 6, width: 12, height: 12 })
      : make("circle", { class: kind, ...id, cx: x, cy: y, r: radius }));
    claim(scene, around(place, radius + 2));
    if (ends === "from ") scene.seen = [[x, x, x], [y, y, y]];
    return ends || "";
  };

  /* The whole network: a curve for each segment, bent to its right, so that the two directions of a road lie apart. */
  const networkScene = (state, layout, scale) => {
    const places = layout.map((it) => it.map((axis) => axis * scale)), scene = makeScene(places.length <= FEW_NODES);
    const used = new Map(), order = [...data.segments.keys()];
    const rank = (segment) => state.route.has(segment) + 2 * failsAt(state, segment);
    const ends = places.map((place, node) => addNode(scene, node, place, state, true));
    for (const segment of order.sort((a, b) => rank(a) - rank(b) || a - b)) {
      const [, from, to] = data.segments[segment], key = from * 5000 + to, count = used.get(key) || 0;
      used.set(key, count + 1);
      const [x, y] = places[from], [u, v] = places[to], length = Math.hypot(u - x, v - y) || 1;
      const bend = Math.min(24, 0.18 * length) * (1 + 2 * count), high = y - 90 - 30 * count;
      const middle = [(x + u) / 2 - (v - y) / length * bend, (y + v) / 2 + (u - x) / length * bend];
      const toMiddle = ([a, b]) => [(a + 2 * middle[0]) / 3, (b + 2 * middle[1]) / 3];
      const curve = from === to ? curveOf([x, y], [x - 70, high], [x + 70, high], [x, y])
        : curveOf([x, y], toMiddle([x, y]), toMiddle([u, v]), [u, v]);
      addRoad(scene, segment, curve, state, { id: `road-${segment + 1}` }, scene.few ? 8 : 5);
    }
    const along = new Set([...state.route].flatMap((segment) => data.segments[segment].slice(1, 3)));
    places.forEach((place, node) => {
      if (!scene.few && !ends[node] && !along.has(node)) return;
      scene.labels.push({ rank: ends[node] ? 0 : 3, kind: ends[node] ? "node-name end-name" : "node-name", lines: [ends[node] + data.nodes[node]],
        anchors: about(place), clear: 26, gaps: [10, 16, 24, 36, 50] });
    });
    placeLabels(scene);
    return scene;
  };

  /* The routes alone, some stretches a line, each route on lines of its own. */
  const routesScene = (state) => {
    const names = [...state.route].flatMap((it) => [data.segments[it][0], data.nodes[data.segments[it][1]], data.nodes[data.segments[it][2]]]);
    const step = Math.max(110, 40 + Math.max(...names.map((it) => widthOf(`from ${it}`))));
    const many = Math.max(1, Math.min(6, Math.floor((byId("frame").clientWidth - 24 - step / 2) / step)));
    const scene = makeScene(true), drawn = new Set(), lines = [];
    for (const list of chosen.routes) for (let at = 0; at < list.length; at += many) lines.push(list.slice(at, at + many));
    let y = 0;
    for (const line of lines) {
      line.forEach((segment, at) => {
        const x = at * step, [, from, to] = data.segments[segment];
        /* A segment may stand on several routes, and only the first line of it has its name in the page. */
        const id = drawn.has(segment) ? {} : { id: `road-${segment + 1}` };
        drawn.add(segment);
        for (const [node, place] of at === line.length - 1 ? [[from, [x, y]], [to, [x + step, y]]] : [[from, [x, y]]]) {
          const ends = addNode(scene, node, place, state, false);
          scene.labels.push({ rank: 0, kind: ends ? "node-name end-name" : "node-name", lines: [ends + data.nodes[node]],
            anchors: [[...place, 0, -1], [...place, 0, 1]], clear: 10, gaps: [10, 16, 24] });
        }
        addRoad(scene, segment, curveOf([x, y], [x + step / 3, y], [x + 2 * step / 3, y], [x + step, y]), state, id, 8);
      });
      y += 90 + (line.some((segment) => failsAt(state, segment)) ? folded(state.reason).length * LINE + 30 : 0);
    }
    placeLabels(scene);
    return scene;
  };

  const svgOf = (scene, title) => {
    const [left, top, right, bottom] = scene.box.map((it, at) => (at < 2 ? Math.floor(it - 8) : Math.ceil(it + 8)));
    const svg = make("svg", { viewBox: `${left} ${top} ${right - left} ${bottom - top}`, width: right - left, height: bottom - top,
      role: "img", "aria-labelledby": "drawing-title" });
    svg.append(make("title", { id: "drawing-title" }, title), ...scene.below.map((it) => it()), ...scene.above.map((it) => it()));
    return svg;
  };
  const widthOfScene = (scene) => scene.box[2] - scene.box[0];
  /* As large as the frame lets it be with its labels, and larger where labels want the room. */
  const fitted = (state, layout, room) => {
    const wide = Math.max(1, ...layout.map((at) => at[0])), high = Math.max(1, ...layout.map((at) => at[1]));
    const least = (scale) => Math.max(0.5, Math.min(2, scale, 440 / high));
    let best = null, scale = least((room - 40) / wide);
    for (let tries = 0; tries < 6; tries += 1) {
      const scene = networkScene(state, layout, scale);
      if (!best || (!scene.unnamed && widthOfScene(scene) < widthOfScene(best))) best = scene;
      const smaller = least(Math.min(0.94 * scale, scale - (widthOfScene(scene) - room) / wide));
      if (scene.unnamed || widthOfScene(scene) <= room || smaller >= scale) break;
      scale = smaller;
    }
    if (best.unnamed) scale = least((room - 40) / wide);
    for (const more of SCALES) {
      if (!best.unnamed || scale * more * Math.max(wide, high) > MOST_WIDE) break;
      const scene = networkScene(state, layout, scale * more);
      if (scene.unnamed < best.unnamed) best = scene;
    }
    return best;
  };
  /* A network of few places that does not fit its frame is tried lying on its side, too: it is no map. */
  const drawNetwork = (state) => {
    const room = byId("frame").clientWidth - 16, upright = fitted(state, data.places, room);
    if (!upright.few || (!upright.unnamed && widthOfScene(upright) <= room)) return upright;
    const turned = fitted(state, data.places.map(([x, y]) => [y, x]), room);
    const rank = (scene) => 1e6 * scene.unnamed + widthOfScene(scene);
    return rank(turned) < rank(upright) ? turned : upright;
  };

  /* Where a frame begins so that a mark and a reason are seen along one axis, or the whole reason where there is no room for both. */
  const scrolled = ([mark, begin, end], size) => {
    const low = Math.min(mark, begin), high = Math.max(mark, end);
    if (high - low + 32 <= size) return (low + high - size) / 2;
    return mark < begin ? end + 12 - size : begin - 12;
  };

  const failsText = (state, segment) => {
    if (!failsAt(state, segment)) return "";
    return `fails, ${state.fails[1] < 0 ? "" : "bridge "}${state.reason}; `;
  };
  const listRoads = (state) => {
    const every = [...data.segments.keys()], cut = state.reached.size ? every.filter((it) => leadsOut(state, it)) : [];
    const isSaid = (it) => isClosed(state.posted, it) || isRestricted(state.posted, it) || state.posted.get(it).ratings.size > 0;
    const set = [...state.posted.keys()].filter(isSaid).sort((a, b) => a - b);
    const listed = [...new Set([...state.route, ...cut, ...set, ...(every.length <= MOST_ROWS ? every : [])])];
    const body = document.createElement("tbody");
    body.setAttribute("role", "rowgroup");
    for (const segment of listed.slice(0, MOST_ROWS)) {
      const row = document.createElement("tr"), [name, from, to] = data.segments[segment];
      row.setAttribute("role", "row");
      cell(row, "th", name);
      cell(row, "td", `${data.nodes[from]} to ${data.nodes[to]}`, "From and to");
      cell(row, "td", (state.route.has(segment) ? (chosen.routes.length > 1 ? "on a route; " : "on the route; ") : "")
        + (cut.includes(segment) ? "leads out of what can be reached; " : "") + failsText(state, segment)
        + postedText(state.posted, segment), "What holds there");
      body.append(row);
    }
    byId("listed").tBodies[0].replaceWith(body);
    byId("listed-caption").textContent = listed.length > MOST_ROWS
      ? `The first ${MOST_ROWS} of ${digits(listed.length)} roads of which something is said`
      : `${listed.length} of ${counted(data.segments.length, "road")}: each route in its order, and what holds there`;
  };

  const noteOf = (state) => {
    if (!chosen) return "";
    const reach = chosen.reach && (state.here || chosen.always) ? ` ${chosen.reach}.` : "";
    const other = state.here ? "" : ` That is of version ${chosen.version}; the roads are shown at version ${state.at}.`;
    const said = byId(chosen.id).cells[1].textContent.trim();
    return `${chosen.title}. ${said}.${reach}${other}`;
  };
  const draw = () => {
    const state = stateNow(), closed = [...state.posted.keys()].filter((segment) => isClosed(state.posted, segment)).length;
    const text = state.at === 0 ? "version 0: the limits and ratings of the day file, before any posting"
      : `version ${state.at}: ${data.sayings[state.at - 1]}`;
    saying.textContent = `${text}. ${counted(closed, "road")} ${closed === 1 ? "is" : "are"} closed.`;
    version.setAttribute("aria-valuetext", text);
    byId("note").textContent = noteOf(state);
    const frame = byId("frame"), whole = data.places !== null, parts = [];
    if (!whole) {
      const why = document.createElement("p");
      why.textContent = data.why + (state.route.size ? `: this is ${chosen.routes.length > 1 ? "each route" : "the route"} alone.`
        : data.chosen.length ? ": choose a permit to see its route." : ".");
      parts.push(why);
    }
    const scene = whole ? drawNetwork(state) : state.route.size ? routesScene(state) : null;
    const title = whole ? "The roads as a diagram" : chosen && chosen.routes.length > 1 ? "The routes alone" : "The route alone";
    if (scene) parts.push(svgOf(scene, `${title}; the table beside it says the same`));
    frame.replaceChildren(...parts);
    const left = scene ? scene.unnamed : 0;
    byId("unnamed").textContent = !left ? (scene && !scene.few ? "Names stand along what is chosen; the table has the others." : "")
      : `${counted(left, "name")} found no room in the drawing; the table has ${left === 1 ? "it" : "them"}.`;
    if (scene && scene.seen) {
      const [x, y] = scene.seen;
      frame.scrollTo(scrolled(x, frame.clientWidth) - scene.box[0] + 8, scrolled(y, frame.clientHeight) - scene.box[1] + 8);
    }
    listRoads(state);
  };

  /* The address follows what is chosen, so that it can be sent. */
  const tell = (name) => {
    try {
      history.replaceState(null, "", name ? `#${encodeURIComponent(name)}` : location.pathname + location.search);
    } catch (fault) {
      /* Where a page may not change its address, it stays. */
    }
  };
  const choose = (id) => {
    chosen = data.chosen.find((it) => it.id === id) || null;
    for (const row of document.querySelectorAll("tr.chosen")) row.classList.remove("chosen");
    choice.value = chosen ? id : "";
    const row = chosen && byId(id);
    if (row) { row.classList.add("chosen"); row.hidden = false; }
    if (chosen) version.value = chosen.version;
    draw();
  };
  const showAll = () => {
    search.value = ""; carrier.value = ""; status.value = ""; nobody = "";
    filter();
  };

  /* What an address leads to: a permit or an answer, a carrier, or a place of the page. One that names nobody shows nothing. */
  const follow = () => {
    let id = location.hash.slice(1);
    try { id = decodeURIComponent(id); } catch (fault) { /* It stays as it is written. */ }
    const kind = id.startsWith("carrier-") ? "carrier" : "", isCarrier = kind && [...carrier.options].some((it) => it.value && it.value === id.slice(8));
    nobody = "";
    if (isCarrier) carrier.value = id.slice(8);
    else if (id && (kind || !byId(id))) nobody = `Nothing on this page is called ${id}, so nothing is shown.`;
    filter();
    const leads = data.chosen.some((it) => it.id === id);
    if (leads || !byId("frame").firstChild) choose(leads ? id : "");
    if (leads) byId(id).scrollIntoView();
  };

  const start = () => {
    const choices = document.createDocumentFragment();
    for (const it of data.chosen) choices.append(new Option(it.title, it.id));
    choice.append(choices);
    byId("finding").open = matchMedia("(min-width: 62rem)").matches;
    byId("form").addEventListener("submit", (event) => event.preventDefault());
    const look = () => { nobody = ""; filter(); };
    search.addEventListener("input", look);
    carrier.addEventListener("change", () => { look(); tell(carrier.value ? `carrier-${carrier.value}` : ""); });
    status.addEventListener("change", look);
    version.addEventListener("input", draw);
    choice.addEventListener("change", () => { choose(choice.value); tell(choice.value); });
    byId("earlier").addEventListener("click", () => { version.stepDown(); draw(); });
    byId("later").addEventListener("click", () => { version.stepUp(); draw(); });
    clear.addEventListener("click", () => { showAll(); choose(""); tell(""); byId("finding").open = true; search.focus(); });
    document.addEventListener("click", (event) => {
      const button = event.target.closest("button[data-choose]");
      if (button) { choose(button.dataset.choose); tell(button.dataset.choose); byId("roads").scrollIntoView(); choice.focus({ preventScroll: true }); }
    });
    window.addEventListener("hashchange", follow);
  };
  start();
  document.documentElement.dataset.ready = "yes";
  follow();
})();
