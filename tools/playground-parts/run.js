"use strict";
// What the view shows of a run, made of the long text that the program prints (docs/FORMATS.md, "The printed text"): the same as tools/show makes,
// in the same words, which stand in WORDS.

const withWords = (form, values) => form.replace(/\{(\w+)\}/g, (all, key) => values[key]);
const recordsOf = (group, kind) => group.records.filter(words => words[0] === kind);
const isAccepted = group => group.kind === "step" && !group.refused && group.records.length > 0 && group.records[0][0] !== "spent";
const counted = (number, noun) => `${number} ${noun}${number === 1 ? "" : "s"}`;

// ---- the long text

// From whom a packet comes, and to whom it goes.
const endsOf = packet => packet.ack ? [packet.frame.receiver, packet.frame.sender] : [packet.frame.sender, packet.frame.receiver];

class Log {
  constructor(text) {
    const lines = text.split("\n").filter(line => line !== "").map(line => line.split(" "));
    const head = Object.fromEntries([0, 1, 2, 3].map(number => [lines[0][1 + 2 * number], +lines[0][2 + 2 * number]]));
    Object.assign(this, head, { carried: false, members: [], frames: [], packets: [], groups: [], limit: head.frames });
    this.frames = [];
    this.add("begin", 0, "");
    lines.slice(1).forEach(words => this.read(words));
  }

  get now() { return this.groups[this.groups.length - 1]; }

  add(kind, step = this.now.step, text = this.now.text) {
    this.groups.push({ number: this.groups.length, kind, step, text, frame: null, packet: null, refused: null, records: [] });
    return this.now;
  }

  read(words) {
    const kind = words[0];
    if (kind === "member" && this.now.number === 0) this.members.push(words[1]);
    else if (kind === "carrier" && this.now.number === 0) this.carried = true;
    else if (kind === "step") this.add("step", +words[1], words.slice(2).join(" "));
    else if (kind === "ticked") this.add("tick");
    else if (kind === "arrived") this.arrive(this.packets[+words[1]]);
    else if (kind === "taken") this.take(this.frames[+words[1]]);
    else if (kind !== "done") this.keep(kind, words);
  }

  arrive(packet) {
    const group = this.add("packet");
    group.packet = packet;
    packet.ended = group;
    packet.again = !packet.ack && packet.frame.taken !== null;
  }

  take(frame) {
    const group = this.carried ? this.now : this.add("frame");
    group.frame = frame;
    frame.taken = group;
  }

  keep(kind, words) {
    const group = this.now;
    group.records.push(words);
    if (kind === "sent") {
      this.frames.push({ number: +words[1], kind: words[2], sender: words[3], receiver: words[4], spelling: words[5], sent: group, taken: null });
    } else if (kind === "packet") {
      this.packets.push({ number: +words[1], frame: this.frames[+words[3]], ack: words[2] === "ack", made: group, ended: null, lost: false });
    } else if (kind === "lost") {
      Object.assign(this.packets[+words[1]], { ended: group, lost: true });
    } else if (kind === "refused") {
      group.refused = words.slice(3).join(" ");
    }
  }

  names() {
    const joins = this.groups.filter(group => group.text.startsWith("join ") && isAccepted(group));
    return [...this.members, ...joins.map(group => group.text.split(" ")[1])].sort();
  }
}

// ---- what frames and groups say

class Body {
  constructor(log, spelling) {
    this.digits = log.digits;
    this.left = spelling.match(/../g).map(byte => parseInt(byte, 16)).slice((log.digits <= 8 ? 4 : 5) + 2 * log.digits);
  }
  number(count) { return this.left.splice(0, count).reduce((sum, byte) => sum * 256 + byte, 0); }
  name() { return this.left.splice(0, this.digits).map(digit => DIGITS[digit % 16]).join(""); }
  all(size, read) { const items = []; for (let left = Math.floor(this.left.length / size); left > 0; left--) items.push(read()); return items; }
  field(sort) {
    if ("124".includes(sort)) return this.number(+sort);
    if (sort === "n") return this.name();
    if (sort === "o") return this.left.length ? this.name() : null;
    if (sort === "t") return String.fromCharCode(...this.left.splice(0));
    if (sort === "w") return this.all(2, () => [this.number(1), DIGITS[this.number(1) % 16]]);
    return this.all(this.digits + 1, () => [this.name(), this.number(1)]);
  }
}

function fieldsOf(log, frame) {
  const body = new Body(log, frame.spelling);
  return Object.fromEntries((WORDS.fields[frame.kind] || []).map(field => field.split(" ")).map(([name, sort]) => [name, body.field(sort)]));
}

const SAYS = {
  hello(frame, fields) {
    const names = fields.links.map(([name, isCore]) => name + (isCore ? "" : " (may still join)")).join(", ");
    const who = fields.core ? "a core node" : "a node that joins itself";
    return `${frame.sender}, ${who}, greets ${frame.receiver}` + (names ? ` and names ${names}.` : " and names nobody.");
  },
  tell(frame, fields) {
    const watched = fields.watch.map(([level, digit]) => `${level} ${digit}`).join(", ");
    return `${frame.sender} tells ${frame.receiver} of the joiner ${fields.joiner}: it covers it from level ${fields.level} on. `
      + (watched ? `Slots that nobody has filled yet: ${watched}.` : "No slot is left to be filled.");
  },
  lay(frame, fields) {
    const pair = `the pair of ${fields.object} and its server ${fields.server}`;
    if (fields.on) return `${frame.sender} has laid ${pair} on to ${frame.receiver}, which goes on from level ${fields.level}.`;
    return `${frame.sender} lays ${pair} at ${frame.receiver} no more.`;
  },
  link: (frame, fields) => `${frame.sender} has a link to ${frame.receiver} ${fields.on ? "now" : "no more"}.`,
  answer: (frame, fields) => `${frame.sender} answers lookup ${fields.ticket} of ${frame.receiver}: `
    + (fields.server ? `a server is ${fields.server}.` : "there is none."),
  leave: (frame, fields) => `${frame.sender} will leave, it says to ${frame.receiver}`
    + (fields.given ? `, and gives ${fields.replacement} as a replacement.` : "."),
};

function sayFrame(log, frame) {
  const fields = fieldsOf(log, frame);
  return SAYS[frame.kind] ? SAYS[frame.kind](frame, fields)
    : withWords(WORDS.frames[frame.kind], { f: frame.sender, t: frame.receiver, ...fields });
}

function sayRecord(words) {
  const kind = words[0];
  if (WORDS.outcomes[kind]) return withWords(WORDS.outcomes[kind], words);
  if (kind === "gone") return `${words[1]} is gone.`;
  if (kind === "answered") return `Lookup ${words[1]} is answered: ` + (words.length > 3 ? `${words[3]} is a server.` : "no server.");
  if (kind === "walked") return `Path ${words.slice(5, -4).join(", ")}; the root is ${words.at(-3)}, after ${counted(+words.at(-1), "hop")}.`;
  if (kind === "rootset") return `They are ${words.slice(5).join(", ")}.`;
  return kind === "garbled" ? `The copy of frame ${words[1]} is refused: ${words.slice(2).join(" ")}.` : null;
}

function sayOutcomes(group) {
  const sent = recordsOf(group, "sent").map(words => `${words[1]} ${words[2]} to ${words[4]}`);
  return [...group.records.map(sayRecord).filter(says => says !== null), ...(sent.length ? [`Sent: ${sent.join(", ")}.`] : [])];
}

function sayStep(group) {
  const words = group.text.split(" ");
  const cast = words[3] === "*" ? "to all nodes." : `to all nodes whose names begin with ${words[3]}.`;
  const first = words[0] === "cast" ? `${words.at(-1)} casts the word ${words[1]} ${cast}`
    : withWords(WORDS.steps[words[0]], words.filter((word, place) => place % 2 === 1));
  const heading = ["garble", "cut"].includes(words[0]) ? "Refused frames" : WORDS.stepHeadings[words[0]] || "Steps of a node";
  return [[first, ...(group.refused !== null ? [`It is refused: ${group.refused}.`] : sayOutcomes(group))], heading];
}

// What happened in a group, and the heading of its rule.
function sayGroup(log, group) {
  if (group.kind === "begin") return [[`The run begins with ${counted(log.members.length, "member")}, all core and at rest.`], "Slots and tables"];
  if (group.kind === "step") return sayStep(group);
  if (group.kind === "tick") return [["A tick: each frame that awaits its acknowledgement is sent once more.", ...sayOutcomes(group)], "Packets"];
  const says = [], { packet, frame } = group;
  if (packet) {
    const sort = packet.ack ? "acknowledgement" : "data packet";
    says.push(`Packet ${packet.number}, the ${sort} of frame ${packet.frame.number}, arrives at ${endsOf(packet)[1]}.`);
    if (packet.again) says.push("The frame was taken before.");
  }
  if (frame) {
    const kind = `${"aeiou".includes(frame.kind[0]) ? "an" : "a"} ${frame.kind}`;
    says.push(`${frame.receiver} takes frame ${frame.number}, ${kind}. ${sayFrame(log, frame)}`);
  }
  return [[...says, ...sayOutcomes(group)], frame ? WORDS.headings[frame.kind] : "Packets"];
}

// ---- what nodes keep at each moment

function actorOf(group) {
  if (group.frame) return group.frame.receiver;
  const words = group.text.split(" ");
  if (!isAccepted(group) || !WORDS.starts.includes(words[0])) return null;
  return ["join", "leave", "abandon"].includes(words[0]) ? words[1] : words.at(-1);
}

// The steps that make the groups of a log again, each with the node that acts; the step is null if it changes nothing.
function makingOf(log) {
  const outstanding = [], underWay = [];
  const takeOut = (list, number) => list.splice(list.indexOf(number), 1);
  const deliver = (list, number) => { const place = list.indexOf(number); takeOut(list, number); return `deliver ${place}`; };
  return log.groups.slice(1).map(group => {
    let step = null;
    if (group.kind === "step" && group.refused === null && !["settle", "deliver", "tick"].includes(group.text.split(" ")[0])) step = group.text;
    else if (group.kind === "tick") step = "tick";
    else if (group.kind === "packet") step = deliver(underWay, group.packet.number);
    else if (group.kind === "frame") step = deliver(outstanding, group.frame.number);
    if (!log.carried) outstanding.push(...recordsOf(group, "sent").map(words => +words[1]));
    underWay.push(...recordsOf(group, "packet").map(words => +words[1]));
    recordsOf(group, "lost").forEach(words => takeOut(underWay, +words[1]));
    return [step, actorOf(group)];
  });
}

// The steps of a run that looks at moments from one on, which moment each observation is of, and where the next run begins.
function planRun(log, making, start) {
  const steps = [], asked = new Map();
  let room = WORDS.mostSteps - making.filter(([step]) => step !== null).length, end = start;
  for (let moment = 0; moment <= making.length; moment++) {
    if (moment && making[moment - 1][0] !== null) steps.push(making[moment - 1][0]);
    const names = moment === 0 ? log.members : making[moment - 1][1] ? [making[moment - 1][1]] : [];
    if (moment < start || moment !== end || 2 * names.length > room) continue;
    room -= 2 * names.length;
    end = moment + 1;
    names.forEach(name => ["table", "pointers"].forEach(kind => { steps.push(`${kind} ${name}`); asked.set(steps.length, [moment, name]); }));
  }
  if (end === start) throw new Error("the run has too many steps to look at its tables");
  return [steps, asked, end];
}

function keepViews(again, asked, views) {
  again.groups.filter(group => group.kind === "step" && asked.has(group.step)).forEach(group => {
    const [moment, name] = asked.get(group.step), view = views[moment];
    if (!(name in view)) view[name] = null;
    const [table] = recordsOf(group, "table"), pointers = recordsOf(group, "pointers");
    if (table) view[name] = { status: table[2], links: recordsOf(group, "link").map(link => link.slice(1, 5)), pointers: [] };
    else if (pointers.length && view[name]) view[name].pointers = recordsOf(group, "pointer").map(pair => pair.slice(1, 3));
  });
}

function scenarioText(log, steps) {
  const strings = list => list.map(text => JSON.stringify(text)).join(", ");
  return `base = ${log.base}\ndigits = ${log.digits}\nwidth = ${log.width}\nframes = ${log.limit}\n` + (log.carried ? "carrier = true\n" : "")
    + `members = [${strings(log.members)}]\nsteps = [${strings(steps)}]\n`;
}

// For each moment what the node that acted keeps, asked of the program in as many runs as it takes.
function viewsOf(log, play) {
  const making = makingOf(log), views = log.groups.map(() => ({}));
  for (let start = 0; start <= making.length;) {
    const [steps, asked, end] = planRun(log, making, start);
    const again = new Log(play(scenarioText(log, steps)));
    if (again.frames.map(frame => frame.spelling).join() !== log.frames.map(frame => frame.spelling).join()) {
      throw new Error("the run with observations has other frames");
    }
    keepViews(again, asked, views);
    start = end;
  }
  return views;
}

// ---- what the view takes

const numberOf = group => group ? group.number : null;

function frameEntry(log, frame) {
  const entry = { kind: frame.kind, from: frame.sender, to: frame.receiver, sent: frame.sent.number, says: sayFrame(log, frame),
    taken: numberOf(frame.taken) };
  return frame.kind === "lay" ? { ...entry, lay: fieldsOf(log, frame) } : entry;
}

function packetEntry(packet) {
  const [from, to] = endsOf(packet);
  return { frame: packet.frame.number, ack: packet.ack, from, to, sent: packet.made.number, taken: numberOf(packet.ended), lost: packet.lost };
}

function momentOf(log, group, views) {
  const [says, rule] = sayGroup(log, group), walked = recordsOf(group, "walked").map(words => [words[1], ...words.slice(5, -4)]);
  return { kind: group.kind, step: group.step, text: group.text, says, rule, views, frame: group.frame ? group.frame.number : null,
    actor: actorOf(group), walked: walked[0] || null };
}

// The run whose long text this is. `play` has the program print the long text of a scenario.
function runOf(text, title, play) {
  const log = new Log(text);
  if (log.groups.length > WORDS.mostMoments || log.names().length > WORDS.mostNodes) {
    throw new Error(`the run has ${counted(log.groups.length, "moment")} and ${counted(log.names().length, "node")}, and the view has room for `
      + `${WORDS.mostMoments} and ${WORDS.mostNodes}: leave out steps`);
  }
  const views = viewsOf(log, play), steps = log.groups.filter(group => group.kind === "step").map(group => group.text.split(" "));
  const objects = steps.filter(step => ["publish", "withdraw", "find", "walk", "root", "rootset"].includes(step[0])).map(step => step[1]);
  return { title, base: log.base, digits: log.digits, width: log.width, carried: log.carried, names: log.names(), objects: [...new Set(objects)],
    frames: log.frames.map(frame => frameEntry(log, frame)), packets: log.packets.map(packetEntry),
    moments: log.groups.map((group, number) => momentOf(log, group, views[number])), rules: WORDS.rules, steps: log.now.step };
}
