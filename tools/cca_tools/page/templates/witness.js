// Tests noted lines in the page of a published set, by the files of the folder and nothing else. The forms of the files
// are in docs/FORMATS.md, and tools/seal makes the same test. Texts of files are kept byte by byte (a character each).
"use strict";

const TIME = String.raw`\d{4}-\d\d-\d\dT\d\d:\d\d:\d\d[+-]\d\d:\d\d`;
const PLACE = String.raw`(?:the\s+start|close\s+\d{1,4})`;
const EVENT = String.raw`end|publish|close\s+\d{1,4}(?:\s+taken\s+back)?|(?:back\s+to|log\s+changed\s+after)\s+${PLACE}`;
const SEAL = String.raw`[0-9a-f](?:\s*[0-9a-f]){63}(?![0-9a-f])`;
const NOTED = new RegExp(
  String.raw`(?:\b(\d{1,6})\.?\s+)?(?:(${TIME})\s+)?\b(key|award|${EVENT})[:\s]\s*(${SEAL})(?:\s?:[^\S\n]*([^\n]*))?`, "gi");
const POSTED = new RegExp(String.raw`^(\d+) (${TIME}) (${EVENT}) ((?:[0-9a-f]{4} ){15}[0-9a-f]{4})(?:: (.+))?$`);

const bytesOf = text => Uint8Array.from(text, it => it.charCodeAt(0));
const hexOf = buffer => [...new Uint8Array(buffer)].map(it => it.toString(16).padStart(2, "0")).join("");
const checksum = async text => hexOf(await crypto.subtle.digest("SHA-256", bytesOf(text)));
const joined = text => text.replace(/\s+/g, "").toLowerCase();
const words = text => text.trim().replace(/\s+/g, " ");
const utf8 = text => new TextDecoder().decode(bytesOf(text));

function textOf(buffer) {
  const bytes = new Uint8Array(buffer), parts = [];
  for (let at = 0; at < bytes.length; at += 8192) parts.push(String.fromCharCode(...bytes.subarray(at, at + 8192)));
  return parts.join("");
}

async function chosen() {
  const files = {};
  for (const file of document.getElementById("files").files) files[file.name] = textOf(await file.arrayBuffer());
  for (const name of ["auction.key", "auction.award", "auction.log", "auction.posted"])
    if (!(name in files)) throw new Error(`Choose the files of the folder, all of them: ${name} isn't among them.`);
  return files;
}

// The posted lines of a LOG.posted, each with the text before it.
function rowsOf(posted) {
  const lines = posted.split("\n"), rows = [];
  if (lines[0] !== "cca posted 1" || lines.pop() !== "") throw new Error("auction.posted isn't of the form of version 1.");
  let before = lines.slice(0, 3).map(it => it + "\n").join("");
  for (const line of lines.slice(3)) {
    const found = POSTED.exec(line);
    if (!found || Number(found[1]) !== rows.length + 1) throw new Error(`auction.posted has no line ${rows.length + 1}.`);
    rows.push({ number: found[1], time: found[2], event: found[3], seal: joined(found[4]), why: found[5] || "", line, before });
    before += line + "\n";
  }
  return rows;
}

// The log and the journal's checksum for each posted line, by the journal; it has to be one chain that leads to the log.
async function byJournal(files, rows) {
  let log = "", before = null, at = 0;
  for (const line of files["auction.journal"].split("\n").slice(0, -1)) {
    let entry = null;
    try { entry = JSON.parse(line); } catch { entry = null; }
    if (!entry || typeof entry.prev !== "string") { before = before === null ? line : before + "\n" + line; continue; }
    if (entry.prev !== (before === null ? "0".repeat(64) : await checksum(before)))
      throw new Error(`The journal was changed: its entry of ${entry.at} doesn't have the checksum of the line before it.`);
    log = log.slice(0, entry.from) + entry.text;
    if (entry.what === "posted") {
      if (!rows[at] || utf8(rows[at].line) !== entry.line) throw new Error(`The journal and auction.posted differ in line ${at + 1}.`);
      rows[at].tries = [[log.slice(0, entry.upto), entry.prev]];
      at += 1;
    }
    before = line;
  }
  if (log !== files["auction.log"]) throw new Error("The journal leads to another log than auction.log.");
  if (at !== rows.length) throw new Error("auction.posted has lines that the journal doesn't have.");
}

function prefixesOf(log) {
  const found = [""];
  for (let at = 0; (at = log.indexOf("\n", at) + 1) > 0; ) found.push(log.slice(0, at));
  return found;
}

// Without a journal: each prefix of the log that may have been sealed, and for a line of the past of the kept logs too.
function byLogs(files, rows) {
  const kept = Object.keys(files).filter(it => !it.startsWith("auction.")).map(it => files[it]);
  const own = prefixesOf(files["auction.log"]), others = kept.flatMap(prefixesOf);
  rows.forEach((row, at) => row.tries = [...own, ...(isPast(row, rows.slice(at + 1)) ? others : [])].map(it => [it, "-"]));
}

// Whether a later line has made the log void that the seal of a line covers.
function isPast(row, after) {
  const later = after.filter(isVoiding);
  if (row.event === "publish") return later.length > 0;
  return isVoiding(row) ? later.some(it => backTo(it) < backTo(row)) : Boolean(row.by);
}

async function isSealed(files, key, award, row) {
  const unsealed = `${row.number} ${row.time} ${row.event}` + (row.why ? `: ${row.why}` : "");
  for (const [log, journal] of row.tries) {
    const text = `cca seal 1\naward ${award}\nlog ${await checksum(log)}\njournal ${journal}\n` +
      `posted ${await checksum(row.before)}\n${unsealed}\n`;
    if (hexOf(await crypto.subtle.sign("HMAC", key, bytesOf(text))) === row.seal) return true;
  }
  return false;
}

const closeOf = event => Number((/\d+/.exec(event) || ["0"])[0]);

function causeOf(row) {
  const close = closeOf(row.event), place = close ? `close ${close}` : "the start";
  const cause = row.event.startsWith("back") ? `the auction went back to ${place}`
    : row.event.endsWith("taken back") ? `close ${close} was taken back, and the lines of its round stay`
    : `the log was changed after ${place}`;
  return cause + (row.why ? `: ${utf8(row.why)}` : "");
}

const isVoiding = row => /^(back|log)|taken back$/.test(row.event);
const backTo = row => closeOf(row.event) - (row.event.endsWith("taken back") ? 1 : 0);

// Which lines are void, and by which line.
function markVoid(rows) {
  let counting = [];
  for (const row of rows) {
    if (isVoiding(row)) {
      for (const it of counting.slice(backTo(row))) it.by = row;
      counting = counting.slice(0, backTo(row));
    } else if (row.event !== "publish") counting.push(row);
  }
}

function verdictOf(noted, rows, heads) {
  const foreign = "NOT of these files: ";
  if (noted.event in heads) return noted.seal === heads[noted.event] ? "agrees" : foreign + `the ${noted.event} has another checksum`;
  const row = rows.find(it => it.seal === noted.seal);
  if (!row) return foreign + "no posted line has this seal";
  const same = noted.event === row.event && ["", row.number].includes(noted.number) && ["", row.time].includes(noted.time) &&
    ["", utf8(row.why)].includes(noted.why);
  if (!same) return foreign + `the seal is the one of \`${row.number} ${row.time} ${row.event}\``;
  if (!row.isSealed) return foreign + "its seal isn't made of this award, key, log and journal and the posted lines before it";
  if (row.by) return `posted as line ${row.number}, void since line ${row.by.number}: ${causeOf(row.by)}`;
  return noted.number ? "agrees" : `agrees (line ${row.number})`;
}

function notesOf(text) {
  const notes = [...text.matchAll(NOTED)].map(it => ({
    number: (it[1] || "").replace(/^0+/, ""), time: (it[2] || "").toUpperCase(), event: words(it[3]).toLowerCase(),
    seal: joined(it[4]), why: words(it[5] || ""),
  }));
  const rest = text.replace(NOTED, "\n").split("\n").find(it => /(?:[0-9a-f]{4}\s){3}|[0-9a-f]{12}/i.test(it));
  if (rest) throw new Error(`This isn't a whole line, which has 64 digits: ${rest.trim()}`);
  if (!notes.length) throw new Error("No posted line is in what you typed.");
  return notes;
}

async function answer() {
  const files = await chosen(), notes = notesOf(document.getElementById("noted").value), rows = rowsOf(files["auction.posted"]);
  const keyText = files["auction.key"].trim(), bytes = Uint8Array.from(keyText.match(/../g), it => parseInt(it, 16));
  const key = await crypto.subtle.importKey("raw", bytes, { name: "HMAC", hash: "SHA-256" }, false, ["sign"]);
  const heads = { key: await checksum(files["auction.key"]), award: await checksum(files["auction.award"]) };
  markVoid(rows);
  if ("auction.journal" in files) await byJournal(files, rows); else byLogs(files, rows);
  for (const row of rows.filter(it => notes.some(note => note.seal === it.seal)))
    row.isSealed = await isSealed(files, key, heads.award, row);
  const said = notes.map(it => [it, verdictOf(it, rows, heads)]);
  const named = said.map(([it, text]) => `${it.number ? `line ${it.number} (${it.event})` : it.event}: ${text}`);
  return [said.every(([, text]) => !text.startsWith("NOT")) ? "yes" : "no", ...named].join("\n");
}

document.getElementById("test").addEventListener("click", async () => {
  const place = document.getElementById("found");
  place.textContent = "";
  try { place.textContent = await answer(); } catch (fault) { place.textContent = `no\n${fault.message}`; }
});
